#!/usr/bin/env python3
"""Prints the vapour card of Table 5 at 400 K and 1 kg/m3, by the library's C entry at 32 bits and at 53, and below each
bracket the exact value by the second program.

`python3 tests/virial_400.py`, from any directory; with a command behind it, the values of another program that answers
the records of tests/gen_cards.py.  Assumes data/terms.bin.
"""

import os
import struct
import subprocess
import sys
from decimal import Decimal
from fractions import Fraction

ROOT = os.path.dirname(os.path.dirname(os.path.abspath(__file__)))
sys.path.insert(0, ROOT)

from second import f64  # noqa: E402
from second.kind import NINE  # noqa: E402
from second.term import terms_of  # noqa: E402
from second.virial import exact_card  # noqa: E402
from stream import record  # noqa: E402

LIBRARY = ["sh", os.path.join(ROOT, "tests", "c"), os.path.join(ROOT, "tests", "card_calls.c")]
LABELS = (("B", 18, "m3/kg"), ("C", 20, "m6/kg2"), ("pressure", 11, "Pa"))  # with the digits shown behind the point
T, RHO = 400.0, 1.0


def ends_of(width, table):
    """The six ends, in pairs, as doubles."""
    asked = record(width, table, f64.word(T), f64.word(RHO))
    done = subprocess.run(sys.argv[1:] or LIBRARY, input=asked, stdout=subprocess.PIPE, check=True)
    number, place, *values = (int(word, 16) for word in done.stdout.split())
    assert (number, place) == (0, 0), "the card is refused"
    ends = [struct.unpack(">d", struct.pack(">Q", end))[0] for end in values[:6]]
    return [ends[i:i + 2] for i in (0, 2, 4)]


def shown(value, digits):
    """A double or a Fraction, rounded to these digits."""
    if isinstance(value, Fraction):
        value = Decimal(value.numerator) / Decimal(value.denominator)
    return format(value, ".%df" % digits)


def main():
    with open(os.path.join(ROOT, "data", "terms.bin"), "rb") as file:
        table = file.read()
    exact = exact_card(terms_of(NINE, table), Fraction(T), Fraction(RHO))
    print("Table 5 at %g K and %g kg/m3:" % (T, RHO))
    for width in (32, 53):
        print("at %d bits" % width)
        for (label, digits, unit), (low, high), value in zip(LABELS, ends_of(width, table), exact):
            print("    %-8s from %s to %s %s" % (label, shown(low, digits), shown(high, digits), unit))
            print("       exact %s, %s" % (shown(value, digits), "between" if low <= value <= high else "OUTSIDE"))


if __name__ == "__main__":
    main()
