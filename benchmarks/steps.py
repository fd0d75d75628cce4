#!/usr/bin/env python3
"""steps.py: how many of the exponential's 256 steps are taken before the rest of its sum is taken at once, by density and c,
at both widths.

Prints a table of docs/PERFORMANCE.md.  The brackets are the second program's; the test is the library's, on the places and
digits that these brackets have.  Assumes Python 3.9 and nothing of the current directory.
"""

import os
import sys

sys.path.insert(0, os.path.dirname(os.path.dirname(os.path.abspath(__file__))))

from second import f64, sheet  # noqa: E402
from second.bracket import given, whole  # noqa: E402
from second.equation import CRITICAL_DENSITY  # noqa: E402
from second.exact import at_most  # noqa: E402
from second.verdict import WIDTHS  # noqa: E402

LAST = 256
DENSITIES = (2.0 ** -10, 0.01, 0.1, 1.0, 10.0, 100.0, 322.0, 500.0, 750.0, 1000.0, 1100.0, 1200.0, 1288.0)


def only_stretches(bits, x, term, total, k):
    """Whether every step from here on only moves the sum's upper end to the next sheet number."""
    (m, _), (_, place), (_, last_place) = x.upper, term.upper, total.lower
    return m > 0 and place + bits < last_place and at_most(sheet.exact(x.upper), (k + 1, 1, 0))


def steps(bits, density, c):
    x = (given(bits, *f64.exact(f64.word(density))) / CRITICAL_DENSITY) ** c
    term = total = whole(bits, 1)
    for k in range(LAST):
        if only_stretches(bits, x, term, total, k):
            return k
        term = (term * x) / (k + 1)
        total = total + term
    return LAST


if __name__ == "__main__":
    columns = [(bits, c) for bits in WIDTHS for c in (1, 2, 3)]
    print("| density, kg/m3 |" + "".join(" %d bits, c = %d |" % column for column in columns))
    print("|---" * (1 + len(columns)) + "|")
    for density in DENSITIES:
        name = "1/1024" if density == 2.0 ** -10 else "%g" % density
        print("| %s |" % name + "".join(" %d |" % steps(bits, density, c) for bits, c in columns))
