#!/usr/bin/env python3
"""Makes data/terms58.bin, 62 packed terms of twelve bytes, from data/table4.txt, whose first lines say its layout.

Rows 1 to 54 are a term each.  Rows 55 to 58 are two each, one behind the other: the first factor with the coefficient,
the second with its negative.  A magnitude counts units of 10^-16; where a coefficient has digits below that, the term
has the nearest unit.  `python3 data/pack4.py` writes the file and prints what was rounded.  Assumes nothing.
"""

import os
import sys
from fractions import Fraction

HERE = os.path.dirname(os.path.abspath(__file__))
sys.path.insert(0, os.path.dirname(HERE))

from second.kind import TWELVE  # noqa: E402
from second.term import UNIT, Term, table_of  # noqa: E402


def rows():
    """Number, c, factors, d, t and coefficient of each row, exactly as typed."""
    with open(os.path.join(HERE, "table4.txt")) as file:
        for line in file:
            if line.startswith("#"):
                continue
            typed, _, power = line.partition("x 10^")
            number, c, factors, d, t, *digits = typed.split()
            coefficient = Fraction("".join(digits)) * Fraction(10) ** int(power or 0)
            c, factors = (0, [Fraction(0)]) if c == "." else (int(c), list(map(Fraction, factors.split(","))))
            yield int(number), c, factors, int(d), int(t), coefficient


def units(coefficient):
    """The magnitude: the nearest count of units."""
    return round(abs(coefficient) * UNIT)


def terms():
    for _, c, factors, d, t, coefficient in rows():
        for place, factor in enumerate(factors):
            hundredths = factor * 100
            assert hundredths.denominator == 1
            negative = (coefficient < 0) != (place == 1)
            yield Term(c, int(hundredths), d, t, int(negative), units(coefficient))


def table():
    return table_of(TWELVE, terms())


def rounded():
    """Rows whose coefficient has digits below a unit: number, coefficient and magnitude in units."""
    for number, *_, coefficient in rows():
        if abs(coefficient) * UNIT != units(coefficient):
            yield number, abs(coefficient) * UNIT, units(coefficient)


def main():
    with open(os.path.join(HERE, "terms58.bin"), "wb") as file:
        file.write(table())
    for number, typed, packed in rounded():
        print("row %d: %s units of 10^-16 are packed as %d, %+f" % (number, float(typed), packed, packed - typed))


if __name__ == "__main__":
    main()
