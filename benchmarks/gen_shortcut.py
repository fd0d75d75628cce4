"""The pairs of tests/gen_pairs.py at 32 bits with nine-byte tables, and as many of Table 5 along the saturation line: what
benchmarks/shortcut.c can do.  Assumes tests/ and the repository's root on the path, as tests/compare has them.

Record and line are those of tests/gen_pairs.py.
"""

import struct

import gen_pairs
from rough_search import pair
from second import f64
from second.kind import NINE
from second.tests import samples
from stream import record, run_of

LINE = 200  # pairs along the line


def records():
    for packed in gen_pairs.records():
        if struct.unpack(">2Q", packed[:16]) == (32, NINE.number):
            yield packed
    for i in range(LINE):
        T = 273.2 + (645.0 - 273.2) * i / (LINE - 1)
        yield record(32, NINE.number, samples.water(NINE), *(f64.word(x) for x in (T, *pair(T))))


def runs():
    yield run_of(records(), gen_pairs.answer)
