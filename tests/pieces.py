#!/usr/bin/env python3
"""Runs the bench program at each width and for each kind of table on input in pieces, and on a long list.  Ends with a
line that counts.

The same bytes in one piece, byte by byte and in random pieces give the same lines; no input gives no line; a list of
100,000 proposals is answered to its last line with no more memory than a list of one.  What the lines say is
tests/compare's matter.  Assumes that crates/bench/out/bench is built (`sh tests/run --build bench`).
"""

import os
import random
import resource
import struct
import subprocess
import sys
import tempfile

HERE = os.path.dirname(os.path.abspath(__file__))
BENCH = [os.path.join(os.path.dirname(HERE), "crates", "bench", "out", "bench")]
TERMS = {"38": bytes.fromhex("D5F0006E9B73B18500"), "58": bytes.fromhex("3190A7C001BA6DCEC6140000")}  # the same one
WORDS = [[width, kind] for width in ("32", "53") for kind in TERMS]
LONG = 100000
ROOM = 4096  # kilobytes that a long list may take beyond a short one


def proposal(*numbers):
    return struct.pack(">5d", *numbers)


def output_of(words, pieces):
    """What the program writes, and the most memory that it and all runs before it took."""
    with tempfile.TemporaryDirectory() as folder:
        with open(os.path.join(folder, "terms.bin"), "wb") as file:
            file.write(TERMS[words[1]])
        running = subprocess.Popen(BENCH + words, cwd=folder, stdin=subprocess.PIPE, stdout=subprocess.PIPE,
                                   bufsize=0)
        if len(pieces) > 1:  # few bytes: the output waits in its pipe
            for piece in pieces:
                running.stdin.write(piece)
                os.sched_yield()
            pieces = [b""]
        text = running.communicate(pieces[0])[0]
    return text.decode("ascii"), resource.getrusage(resource.RUSAGE_CHILDREN).ru_maxrss


def cuts(data, chance):
    """The data in pieces of random length."""
    places = sorted(chance.sample(range(1, len(data)), 5))
    return [data[a:b] for a, b in zip([0] + places, places + [len(data)])]


def results(words):
    data = proposal(272, 1000, 1, 0, 0) + proposal(300, 322, 1, 0, 0) + proposal(300, 1000, 1, 0, 0) + b"\x40\x72\xc0"
    whole, small = output_of(words, [data])
    yield "four lines", whole.count("\n") == 4
    yield "byte by byte", output_of(words, [data[i:i + 1] for i in range(len(data))])[0] == whole
    chance = random.Random(1)
    for _ in range(10):
        yield "in pieces", output_of(words, cuts(data, chance))[0] == whole
    yield "no input", output_of(words, [b""])[0] == ""
    yield "39 bytes", output_of(words, [data[:39]])[0].split(" ")[:2] == ["1", "12"]
    text, large = output_of(words, [proposal(272, 1000, 1, 0, 0) * LONG])
    lines = text.split("\n")
    yield "a long list", len(lines) == LONG + 1 and lines[-2].split(" ")[0] == str(LONG)
    yield "in the same memory", large - small < ROOM


def main():
    passed = failed = 0
    for words, (what, good) in ((words, result) for words in WORDS for result in results(words)):
        passed, failed = passed + good, failed + (not good)
        if not good:
            print("pieces at %s bits, kind %s: %s" % (*words, what))
    print("%d passed, %d failed" % (passed, failed))
    return 1 if failed else 0


if __name__ == "__main__":
    sys.exit(main())
