"""Streams of records for comparisons: big-endian u64 words in, lines of hexadecimal words out.  Assumes whole records.

Every field of a record is one word of eight bytes, most significant first:
  an f64           its bits
  a sheet number   three words: 1 for negative else 0; |m|; e + 262144.  Zero is 0 0 0.
  a bracket        its lower end, then its upper end: six words
  a table          its length in bytes, then the bytes, then zero bytes up to a multiple of eight
A record that depends on the width has it as its first word, and one that depends on the kind of table (38 or 58) has
that behind the width, or first where there is no width.  There is no count in front and no mark at the end:
records follow each other until the input ends.
Every record is answered by one line: words of 16 lower-case hexadecimal digits, one space between, a line feed.
"""

import struct
from typing import Dict, List, NamedTuple, Tuple

from second.bracket import Bracket

BIAS = 262144


class Run(NamedTuple):
    """One run of a library's program: files of its folder, its standard input, the lines that it should write, and the
    words behind its command."""
    files: Dict[str, bytes]
    stdin: bytes
    lines: List[str]
    words: Tuple[str, ...] = ()


class Reader:
    """Takes fields off the front of a stream."""

    def __init__(self, data):
        self.data, self.place = data, 0

    def ended(self):
        return self.place == len(self.data)

    def take(self, count):
        piece = self.data[self.place:self.place + count]
        assert len(piece) == count, "a record is cut short"
        self.place += count
        return piece

    def word(self):
        return struct.unpack(">Q", self.take(8))[0]

    def sheet(self):
        negative, m, e = self.word(), self.word(), self.word()
        return (-m if negative else m, e - BIAS) if m else (0, 0)

    def bracket(self, bits):
        return Bracket(bits, self.sheet(), self.sheet())

    def table(self):
        length = self.word()
        return self.take(length + -length % 8)[:length]


def words_of(bits, s):
    m, e = s
    assert m == 0 or abs(m).bit_length() == bits
    return [int(m < 0), abs(m), e + BIAS] if m else [0, 0, 0]


def words_of_bracket(b):
    return words_of(b.bits, b.lower) + words_of(b.bits, b.upper)


def record(*fields):
    """The bytes of a record: whole numbers are words, bytes are a table, and lists are words in a row."""
    parts = []
    for field in fields:
        if isinstance(field, bytes):
            parts.append(struct.pack(">Q", len(field)) + field + bytes(-len(field) % 8))
        else:
            row = field if isinstance(field, list) else [field]
            parts.append(struct.pack(">%dQ" % len(row), *row))
    return b"".join(parts)


def run_of(records, answer):
    """The run over all records; the second program answers from the bytes, as the library's program has to."""
    reader = Reader(b"".join(records))
    lines = []
    while not reader.ended():
        lines.append(" ".join("%016x" % word for word in answer(reader)))
    return Run({}, reader.data, lines)
