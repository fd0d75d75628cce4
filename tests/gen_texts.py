"""Texts to read and tables to write, over 20,000 texts and 6,000 tables, all different, into lent buffers (fields as in
stream.py).  Assumes the seeds below.

Record: function (0 reads a text, 1 writes one), room (the buffer's length in bytes), the lent text or table.
Line: what the call hands back for the choices 0 to 3 and for 2^64 - 1; then the block after the call as words: 8 bytes,
the buffer, 8 bytes, zeros up to a whole word.  Before the call byte i of the block is (37 i + 11) modulo 256.

Printed are how many there are, how many are refused, and the calls by number; `python3 tests/gen_texts.py` prints these
and runs nothing.
"""

import os
import struct
import sys
from collections import Counter
from random import Random
from typing import NamedTuple, Set

sys.path.insert(0, os.path.dirname(os.path.dirname(os.path.abspath(__file__))))

from second.kind import MOST, NINE  # noqa: E402
from second.output import chosen  # noqa: E402
from second.term import packed, table_of, term38, terms_of  # noqa: E402
from second.tests import samples  # noqa: E402
from second.tests.test_text import (PARTS, ROOMY, ROW, line_of, lines_of, slips, spelled, spelled_table,  # noqa: E402
                                    unspelled)
from second.text import read_text, write_text  # noqa: E402
from stream import record, run_of  # noqa: E402

READ, WRITE = 0, 1
GUARD = 8
CHOICES = [0, 1, 2, 3, 2 ** 64 - 1]
LETTERS = b"0123456789" * 2 + b"-+.eE \n\t\r\x00"  # what slips are made of
SHORT = 5  # rows of most tables
TRIPS, EDGES, SLIPPED, CHANGED, CUT, MOVED, NOISE, LONG, BEHIND = 2500, 100, 22, 6000, 1200, 600, 500, 40, 200
NO_SPELLING, BROKEN = 1500, 800


# texts

def some_lines(random, most=SHORT, least=1):
    return lines_of(spelled_table(random, most, least))


def letter(random):
    return bytes([random.choice([random.choice(LETTERS), random.choice(LETTERS), random.randrange(256)])])


def one_byte_off(random, text):
    """One byte changed, removed, put in, or doubled."""
    place = random.randrange(len(text))
    front, back = text[:place], text[place:]
    return random.choice([front + letter(random) + back[1:], front + back[1:], front + letter(random) + back,
                          front + back[:1] + back])


def part(random, text):
    place = random.randrange(len(text) + 1)
    return random.choice([text[:place], text[place:]])


def moved(random, lines):
    """Rows in another order, doubled or left out: still a text; one more byte off, and it mostly is not."""
    lines = random.sample(lines + random.choices(lines, k=random.randrange(3)), random.randint(1, len(lines)))
    text = b"".join(lines)
    return random.choice([text, one_byte_off(random, text)])


def slipped(lines, place):
    """Every slip in the row at this place."""
    return (b"".join(lines[:place] + [slip] + lines[place + 1:]) for slip in slips(lines[place]))


def noise(random):
    return bytes(random.choices(random.choice([LETTERS, range(256)]), k=random.randrange(80)))


def short_texts(random):
    for _ in range(SLIPPED):
        lines = some_lines(random)
        yield from slipped(lines, random.randrange(len(lines)))
    for _ in range(CHANGED):
        yield one_byte_off(random, b"".join(some_lines(random, 3)))
    for _ in range(CUT):
        yield part(random, b"".join(some_lines(random, 3)))
    for _ in range(MOVED):
        yield moved(random, some_lines(random, SHORT, 2))
    for _ in range(NOISE):
        yield noise(random)
        yield b"".join(some_lines(random, 2)) + noise(random)


def texts_near_row_38():
    """Every other byte in each of its places, every field's numbers one by one, each of its parts, and no text."""
    for place, old in enumerate(ROW):
        yield from (ROW[:place] + bytes([byte]) + ROW[place + 1:] for byte in range(256) if byte != old)
    for field in (0, 1, 2, 5):
        for number in range(-20, 41):
            yield line_of(PARTS[:field] + (b"%d" % number,) + PARTS[field + 1:])
    for first in range(len(ROW)):
        yield ROW[:first]
        yield ROW + ROW[:first]
        yield ROW[first:]
    yield from (bytes([byte]) for byte in range(256))


def long_texts(random):
    """60 to 66 rows; a slip in each line up to the 66th; anything at all behind 64 good rows."""
    for count in range(60, 67):
        for _ in range(LONG):
            lines = (some_lines(random, MOST, MOST) + some_lines(random))[:count]
            yield b"".join(lines)
            yield one_byte_off(random, b"".join(lines))
            yield moved(random, lines)
    for place in range(66):
        lines = some_lines(random, MOST, MOST) + some_lines(random)[:1] * 2
        yield from random.sample(list(slipped(lines, place)), 8)
    full = b"".join(some_lines(random, MOST, MOST))
    yield from (full + bytes([byte]) for byte in range(256))
    for _ in range(BEHIND):
        behind = [noise(random), part(random, ROW), b"\n" * random.randrange(200), ROW * random.randrange(9)]
        yield b"".join(some_lines(random, MOST, MOST)) + random.choice(behind)


# tables

def with_some(random, table, kind):
    """The table with up to three of its terms as this kind makes them."""
    terms = terms_of(NINE, table)
    for place in random.sample(range(len(terms)), random.randint(1, min(3, len(terms)))):
        terms[place] = kind(random, terms[place])
    return table_of(NINE, terms)


def broken(random, _):
    return samples.broken_term(random)


def sized(random):
    """A table with spellings: mostly short, at times any length, at times full."""
    return spelled_table(random, *random.choice([(SHORT, 1)] * 12 + [(MOST, 1), (MOST, MOST)]))


def edge_magnitudes():
    """Both sides of each line between those that have a spelling and those that do not, or are broken."""
    for power in range(18):
        yield from (10 ** power + step for step in (-11, -10, -1, 0, 1, 10, 11, 100) if 10 ** power + step >= 0)
    for power in range(8):
        yield from ((10 ** 10 - 1) * 10 ** power + step for step in (-1, 0, 1))
        yield from ((10 ** 9 + 1) * 10 ** power + step for step in (-1, 0, 1))
        yield 12345678905 * 10 ** power
        yield 1234567891 * 10 ** power


def odd_tables(random):
    """No spelling, broken, both, any bytes, wrong lengths, single magnitudes at the edges, and Table 5."""
    for _ in range(NO_SPELLING):
        yield with_some(random, sized(random), unspelled)
    for _ in range(BROKEN):
        yield with_some(random, sized(random), broken)
        yield with_some(random, with_some(random, sized(random), unspelled), broken)
    for place in range(MOST):
        for kind in (unspelled, broken):
            terms = terms_of(NINE, spelled_table(random, MOST, MOST))
            terms[place] = kind(random, terms[place])
            yield table_of(NINE, terms)
    for length in range(600):
        yield table_of(NINE, (random.choice([spelled, unspelled, broken])(random, samples.term(random))
                              for _ in range(67)))[:length]
    for length in range(0, 600, NINE.size):
        yield samples.sound_table(random, 67)[:length]
        yield random.getrandbits(4800).to_bytes(600, "big")[:length]
    for magnitude in edge_magnitudes():
        yield packed(NINE, samples.term(random)._replace(magnitude=magnitude))
    longest = packed(NINE, term38(3, 15, 24, 1, 10 ** 9))
    yield from (longest * count for count in (64, 65))  # the longest text, and one row more
    yield samples.table5()
    yield samples.odd_table()


# calls

def near(random, size):
    """A room of that size, a little less or more, none, or large."""
    return max(0, random.choice([size, size, size - 1, size + 1, 0, size + random.randint(2, 90)]))


def read_call(random, text):
    return READ, near(random, NINE.size * min(text.count(b"\n"), MOST)), text


def write_call(random, table):
    text = write_text(table, ROOMY).output
    return WRITE, near(random, len(text) or random.randint(1, 3 * len(table) + 1)), table


def round_trips(random):
    """A table that has a text is written, and that text is read; for some into buffers of every size near the line."""
    for i in range(TRIPS):
        table = sized(random)
        text = write_text(table, ROOMY).output
        yield write_call(random, table)
        yield read_call(random, text)
        if i < EDGES:
            for function, lent, size in ((READ, text, len(table)), (WRITE, table, len(text))):
                yield from ((function, room, lent) for room in (0, 1, size - 1, size, size + 1, size + 1000))


def calls():
    yield from round_trips(Random(113))
    random = Random(114)
    for texts in (short_texts(random), texts_near_row_38(), long_texts(random)):
        yield from (read_call(random, text) for text in texts)
    yield from (write_call(random, table) for table in odd_tables(random))


def words_of_block(room, output):
    block = bytearray((37 * i + 11) % 256 for i in range(GUARD + room + GUARD))
    block[GUARD:GUARD + len(output)] = output
    block += bytes(-len(block) % 8)
    return list(struct.unpack(">%dQ" % (len(block) // 8), block))


def answer(reader):
    function, room, lent = reader.word(), reader.word(), reader.table()
    reply = (read_text, write_text)[function](lent, room)
    return [chosen(reply, choice) for choice in CHOICES] + words_of_block(room, reply.output)


# counts

class Counts(NamedTuple):
    texts: int  # different ones
    refused: int  # of these, with 16
    tables: int  # different ones that were to be written
    numbers: Counter  # of calls, by function and number
    places: Set  # function, number and place that occur


def counted(made, lines):
    numbers, places, texts, tables = Counter(), set(), {}, set()
    for (function, _, lent), line in zip(made, lines):
        number, place = (int(word, 16) for word in line.split(" ", 2)[:2])
        numbers[function, number] += 1
        places.add((function, number, place))
        if function == READ:
            texts[lent] = number
        else:
            tables.add(lent)
    return Counts(len(texts), list(texts.values()).count(16), len(tables), numbers, places)


def made_run():
    made = list(calls())
    run = run_of((record(*call) for call in made), answer)
    return run, counted(made, run.lines)


def shown(counts):
    """Three lines a person reads."""
    yield "%d texts, %d of them refused with 16; %d tables" % counts[:3]
    for function, name in ((READ, "reading"), (WRITE, "writing")):
        numbers = sorted(number for which, number in counts.numbers if which == function)
        times = ["%d times %d" % (counts.numbers[function, number], number) for number in numbers]
        yield "calls, %s: %s" % (name, ", ".join(times))


def runs():
    """Enough texts, half of them refused; every number of both calls often; every line, and every place of a term."""
    run, counts = made_run()
    print(*shown(counts), sep="\n")
    assert counts.texts >= 20000 and counts.refused * 2 >= counts.texts and counts.tables >= 5000, counts
    assert set(counts.numbers) == {(READ, n) for n in (0, 16, 18)} | {(WRITE, n) for n in (0, 1, 2, 17, 18)}
    assert min(counts.numbers.values()) >= 500, counts.numbers
    expected = {(READ, 16, line) for line in range(1, MOST + 2)}
    expected |= {(WRITE, number, place) for number in (2, 17) for place in range(1, MOST + 1)}
    assert counts.places == expected | {(READ, 0, 0), (READ, 18, 0), (WRITE, 0, 0), (WRITE, 1, 0), (WRITE, 18, 0)}
    yield run


if __name__ == "__main__":
    print(*shown(made_run()[1]), sep="\n")
