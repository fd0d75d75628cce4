"""Runs the second program as the bench program: terms.bin from the current directory, proposals on standard input.

`python3 second [WIDTH [KIND]] < proposals`, with this folder's path, from any directory.  Assumes nothing.
"""

import os
import sys

sys.path.insert(0, os.path.dirname(os.path.dirname(os.path.abspath(__file__))))

from second.bench import kind_of, lines, width_of  # noqa: E402


def main():
    try:
        with open("terms.bin", "rb") as file:
            table = file.read()
    except FileNotFoundError:  # counts as empty
        table = b""
    words = sys.argv[1:]
    for text in lines(width_of(words), kind_of(words), table, sys.stdin.buffer.read()):
        print(text)


if __name__ == "__main__":
    main()
