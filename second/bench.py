"""The bench program's lines (01, "The bench program"; 02 d and h).  Assumes the table and the proposals as bytes."""

import struct

from .verdict import pair_check, refused

SIZE = 40  # T, liquid, vapour, pressure tolerance, Gibbs tolerance
WIDTHS = {"32": 32, "53": 53}  # by the word that names each
KINDS = {"38": 38, "58": 58}
NO_WIDTH = NO_KIND = 0


def line(count, answer):
    lower, upper = answer.ends
    return "%d %d %d %016x %016x" % (count, answer.number, answer.place, lower, upper)


def width_of(words):
    """The width that the program's words name, by the first of them: 32 where there is none."""
    return WIDTHS.get(words[0], NO_WIDTH) if words else 32


def kind_of(words):
    """The kind that they name, by the second: 38 where there is none."""
    return KINDS.get(words[1], NO_KIND) if len(words) > 1 else 38


def lines(width, kind, table, proposals):
    """One line a proposal; one that is cut short is the last, whatever the width and the kind."""
    for count, start in enumerate(range(0, len(proposals), SIZE), 1):
        piece = proposals[start:start + SIZE]
        if len(piece) < SIZE:
            yield line(count, refused(12))
        else:
            yield line(count, pair_check(width, kind, table, *struct.unpack(">5Q", piece)))
