#!/usr/bin/env python3
"""Runs the program `tables` both ways and compares what it writes with second/text.py.  Ends with a line that counts.

The tables that ship, as files; random tables; each refusal with its line on standard error; lengths near the longest
text and table, and far beyond; input in pieces; wrong words.  A run passes if standard output, standard error and exit
status 0 are what they should be.  Assumes that crates/tables/out/tables is
built (`sh tests/run --build tables`).
"""

import fcntl
import os
import random
import struct
import subprocess
import sys
import termios
import time

HERE = os.path.dirname(os.path.abspath(__file__))
ROOT = os.path.dirname(HERE)
sys.path.insert(0, ROOT)

from second.kind import MOST, NINE  # noqa: E402
from second.term import table_of, terms_of  # noqa: E402
from second.tests import samples  # noqa: E402
from second.tests.test_text import ROW, ROW_38, lines_of, slips, spelled_table, unspelled  # noqa: E402
from second.text import tables  # noqa: E402

TABLES = [os.path.join(ROOT, "crates", "tables", "out", "tables")]
LONGEST_LINE = b"3 15 24 -0.1234567890e-6\n"
MEGABYTE = 1 << 20
PATIENCE = 60  # seconds that one run may take
BOTH_WAYS, BADLY = 40, 25


# running the program

def unread(pipe):
    """How many bytes wait in the pipe."""
    return struct.unpack("i", fcntl.ioctl(pipe, termios.FIONREAD, bytes(4)))[0]


def feed(running, pieces):
    """Hands each piece over and waits until it is taken.  A program that has its answer may end before."""
    limit = time.monotonic() + PATIENCE
    try:
        for piece in pieces:
            running.stdin.write(piece)
            while unread(running.stdin) and running.poll() is None and time.monotonic() < limit:
                time.sleep(0.0001)
    except BrokenPipeError:
        pass


def outcome(words, stdin, pieces):
    """Standard output, standard error and exit status for input in these pieces."""
    running = subprocess.Popen(TABLES + words, stdin=stdin, stdout=subprocess.PIPE, stderr=subprocess.PIPE, bufsize=0)
    feed(running, pieces[:-1])
    try:
        output, errors = running.communicate(pieces[-1] if pieces else None, timeout=PATIENCE)
    except subprocess.TimeoutExpired:
        running.kill()
        running.communicate()
        return "no end"
    return output, errors, running.returncode


def of_file(word, name):
    with open(os.path.join(ROOT, "data", name), "rb") as file:
        return outcome([word], file, [])


def same(words, *pieces):
    """Whether the program writes what the second program does."""
    return outcome(words, subprocess.PIPE, pieces) == (*tables(words, b"".join(pieces)), 0)


# what it is run on

def files():
    for text, table in (("table5.txt", "terms.bin"), ("odd.txt", "odd.bin")):
        read = of_file("read", text) == (samples.data(table), b"", 0)
        yield "what the library reads from data/%s is data/%s" % (text, table), read
        written = of_file("write", table) == (samples.data(text), b"", 0)
        yield "what the library writes from data/%s is data/%s" % (table, text), written


def round_trips(chance):
    for i in range(BOTH_WAYS):
        table = spelled_table(chance, *((MOST, MOST) if i % 8 == 0 else (MOST, 1)))
        text = b"".join(lines_of(table))
        yield "a text is read", outcome(["read"], subprocess.PIPE, [text]) == (table, b"", 0)
        yield "a table is written", outcome(["write"], subprocess.PIPE, [table]) == (text, b"", 0)


def bad_texts(chance):
    """Every slip once, each in another table; then the line that is counted."""
    for number in range(len(list(slips(ROW)))):
        lines = lines_of(spelled_table(chance, 8))
        place = chance.randrange(len(lines))
        lines[place] = list(slips(lines[place]))[number]
        yield "slip %d" % number, same(["read"], b"".join(lines))
    for line in (1, 2, 9, 10, 63, 64):
        yield "a bad line %d" % line, same(["read"], ROW * (line - 1) + b"x\n" + ROW * 70)
    for behind in (b"", ROW, b"\n", b"x", b"\x00", ROW[:-1], ROW * 2):
        yield "64 rows and %r" % behind, same(["read"], ROW * 64 + behind)
    yield "no text", same(["read"], b"")


def bad_tables(chance):
    for length in (0, 1, 8, 10, 17, 567, 575, 576, 577, 584, 585, 586, 1152):
        yield "%d bytes" % length, same(["write"], (ROW_38 * 200)[:length])
    for _ in range(BADLY):
        terms = terms_of(NINE, spelled_table(chance))
        place = chance.randrange(len(terms))
        terms[place] = unspelled(chance, terms[place])
        yield "no spelling", same(["write"], table_of(NINE, terms))
        terms[chance.randrange(len(terms))] = samples.broken_term(chance)
        yield "a broken term", same(["write"], table_of(NINE, terms))


def long_inputs(chance):
    """Around the longest text, which has 1,600 bytes, and the longest table, and far beyond."""
    for length in range(1590, 1611):
        yield "%d bytes of the longest rows" % length, same(["read"], (LONGEST_LINE * 66)[:length])
    for length in (0, 20, 24, 25, 26, 400, 5000):
        yield "63 rows and %d bytes" % length, same(["read"], LONGEST_LINE * 63 + b"1" * length)
        yield "63 rows, %d bytes and a line feed" % length, same(["read"], LONGEST_LINE * 63 + b"1" * length + b"\n")
    noise = bytes(chance.choices(range(256), k=10000))
    for word in ("read", "write"):
        yield "10,000 bytes", same([word], noise)
        yield "10,000 bytes behind 64 rows", same([word], (ROW if word == "read" else ROW_38) * 64 + noise)
        for piece in (b"\x00", b"1", b" ", b"\n", ROW, ROW_38):
            yield "a megabyte of %r" % piece, same([word], piece * (MEGABYTE // len(piece)))
    for front in (ROW, ROW * 63, ROW * 64):
        yield "a megabyte behind rows", same(["read"], front + b"0" * MEGABYTE)
        yield "a megabyte of lines behind rows", same(["read"], front + b"\n" * MEGABYTE)


def bytes_of(data):
    return [data[i:i + 1] for i in range(len(data))]


def cuts(chance, data):
    """The data in pieces of random length."""
    places = sorted(chance.sample(range(1, len(data)), min(5, len(data) - 1)))
    return [data[a:b] for a, b in zip([0] + places, places + [len(data)])]


def in_pieces(chance):
    for word, data in (("read", ROW * 3), ("read", ROW * 2 + b"x\n" + ROW), ("read", ROW[:-1]), ("write", ROW_38 * 3),
                       ("write", ROW_38 + bytes(NINE.size)), ("write", ROW_38[:-1]), ("read", ROW * 66)):
        yield "byte by byte", same([word], *bytes_of(data))
        for _ in range(3):
            yield "in pieces", same([word], *cuts(chance, data))


def wrong_words():
    for words in ([], [""], ["x"], ["Read"], ["WRITE"], ["rea"], ["reads"], ["read "], [" read"], ["writ"], ["writer"],
                  ["read", "x"], ["read", ""], ["read", "read"], ["read", "write"], ["write", "x"], ["x", "read"],
                  ["--help"], [b"\xff"], ["x" * 5000]):
        yield "the words %.60r" % (words,), same(words, ROW)


def results():
    chance = random.Random(1)
    yield from files()
    for kind in (round_trips, bad_texts, bad_tables, long_inputs, in_pieces):
        yield from kind(chance)
    yield from wrong_words()


def main():
    passed = failed = 0
    for what, good in results():
        passed, failed = passed + good, failed + (not good)
        if not good:
            print("tables: %s" % what)
    print("%d passed, %d failed" % (passed, failed))
    return 1 if failed else 0


if __name__ == "__main__":
    sys.exit(main())
