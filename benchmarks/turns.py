#!/usr/bin/env python3
"""turns.py ROUNDS FOLDER INPUT NAME=COMMAND..: runs each command in the folder with the input on standard input, in turn, so many rounds.

Prints a line for each: its name, milliseconds of processor time in the shortest run, and this time over the library's and over MPFR's, the
commands whose names begin with `bench program` and `MPFR`, the first of each.  Ends with an error where what they write differs.  Assumes
that the commands' words need no quotes.
"""

import os
import subprocess
import sys


def timed(words, folder, given):
    """Processor time of one run in milliseconds, and what it wrote."""
    with open(given, "rb") as file:
        process = subprocess.Popen(words, cwd=folder, stdin=file, stdout=subprocess.PIPE)
        written = process.stdout.read()
        _, status, usage = os.wait4(process.pid, 0)
    if status:
        sys.exit("%s: status %d" % (" ".join(words), status))
    return 1000 * (usage.ru_utime + usage.ru_stime), written


def main(rounds, folder, given, commands):
    best, first = {}, None
    for _ in range(rounds):
        for name, words in commands.items():
            took, written = timed(words, folder, given)
            best[name] = min(took, best.get(name, took))
            first = first or written
            if written != first:
                sys.exit("%s: writes something else" % name)
    bases = [next(best[name] for name in best if name.startswith(base)) for base in ("bench program", "MPFR")]
    for name, took in best.items():
        print("%-48s %9.2f %18.3f %18.3f" % (name, took, *(took / base for base in bases)))


if __name__ == "__main__":
    rounds, folder, given, *commands = sys.argv[1:]
    main(int(rounds), folder, given, {name: command.split() for name, _, command in (c.partition("=") for c in commands)})
