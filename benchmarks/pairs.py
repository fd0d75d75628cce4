#!/usr/bin/env python3
"""pairs.py KIND [proposals]: writes 1,000 saturation pairs of the rough search to standard output, even in T from 273.2 K to 645 K by
Table 5 (kind 38), from 400 K on by Table 4 (kind 58), whose pairs are refused at 32 bits in colder water.

Each is three f64s, least significant byte first, as x86-64 spells them: T, liquid, vapour.  With `proposals` each is one of the bench
program's: five f64s, most significant byte first, the last two tolerances of 10^6.  Assumes tests/rough_search.py.
"""

import os
import struct
import sys

sys.path.insert(0, os.path.join(os.path.dirname(os.path.dirname(os.path.abspath(__file__))), "tests"))

from rough_search import pair  # noqa: E402

COUNT, LAST = 1000, 645.0
FIRST = {38: 273.2, 58: 400.0}


def pairs(kind):
    for i in range(COUNT):
        # stepped through in another order, so that no stretch of the list is all cold
        T = FIRST[kind] + (LAST - FIRST[kind]) * (i * 389 % COUNT) / (COUNT - 1)
        yield (T, *pair(T, kind))


if __name__ == "__main__":
    for found in pairs(int(sys.argv[1])):
        packed = struct.pack(">5d", *found, 1e6, 1e6) if sys.argv[2:] == ["proposals"] else struct.pack("<3d", *found)
        sys.stdout.buffer.write(packed)
