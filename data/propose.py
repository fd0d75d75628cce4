#!/usr/bin/env python3
"""Makes data/proposals.bin, a steriliser's proposals as the bench program reads them, with data/lines.txt, what it
answers at 32 bits, and data/lines53.txt, what it answers at 53; the same three for the odd table,
data/odd_proposals.bin, data/odd_lines.txt and data/odd_lines53.txt; and for the 58-row table data/proposals58.bin,
data/lines58.txt and data/lines58_53.txt.

The temperatures are those of a steriliser's plugs, the densities the rough search's (tests/rough_search.py), rounded to
eight digits so that every machine makes the same file.  The tolerances are a little above the brackets' widths in
docs/TOLERANCES.md at 32 bits.  The last six are wrong on purpose, one of them for 32 bits only.  Lines come from the
second program, with data/terms.bin.

The odd table (data/odd.txt) is sound and describes no water: from about 68 to 491 kg/m3 its pressures lie below zero,
and two densities there are in balance and push back when squeezed.  Those two are what 02 f is about.

For the 58-row table (data/terms58.bin) the tolerances are above the brackets' widths at 53 bits, and from 450 K on at 32
bits too: in thinner vapour the two terms that rows 55 to 58 are each made of nearly cancel (docs/TOLERANCES.md), and at
32 bits these proposals are refused.  The last seven are wrong on purpose, one of them for 32 bits only.
`python3 data/propose.py` writes the nine files.  Assumes nothing.
"""

import math
import os
import struct
import sys

HERE = os.path.dirname(os.path.abspath(__file__))
ROOT = os.path.dirname(HERE)
sys.path[:0] = [ROOT, os.path.join(ROOT, "tests")]

import rough_search  # noqa: E402
from second.bench import lines  # noqa: E402

CELSIUS = [100, 105, 110, 115, 118, 121, 126, 134, 140]
TOLERANCES = (1000.0, 1.0)  # Pa and J/kg, for plugs from 100 degrees on
COLD = (2000.0, 2.0)  # at room temperature the brackets are wider
ICE = (2500.0, 3.0)  # and at the triple point wider still


def rounded(x):
    return float("%.8g" % x)


def found_at(T, kind=38):
    """Temperature in K and the rough search's liquid and vapour."""
    return (T,) + tuple(map(rounded, rough_search.pair(T, kind)))


def found(celsius):
    return found_at(rounded(celsius + 273.15))


def plugs():
    """T, liquid, vapour, pressure tolerance, Gibbs tolerance of each proposal."""
    yield found(0.01) + ICE  # the coldest cell there is
    yield found(25) + COLD
    for celsius in CELSIUS:
        yield found(celsius) + TOLERANCES
    T, liquid, vapour = found(121)
    yield (T, rounded(liquid + 0.01), vapour) + TOLERANCES  # a liquid that is too dense: 9
    yield (T, liquid, rounded(vapour * 0.999)) + TOLERANCES  # a vapour that is too thin: 10
    yield (T, liquid, vapour, 100.0, 1.0)  # the pair itself, a tolerance for 53 bits: 9 at 32, 0 at 53
    yield (T, liquid, rounded(vapour * 1000)) + TOLERANCES  # the vapour in g/m3: 7
    yield (math.nan, liquid, vapour) + TOLERANCES  # a gauge that fell out: 3
    yield found(-0.1) + ICE  # 273.05 K, below the triple point, where no such cell is: 3


# K, with tolerances in Pa and J/kg, for the 58-row table
COOL = ((273.16, 100.0, 3e4), (280.0, 100.0, 1.5e4), (300.0, 100.0, 2000.0), (320.0, 50.0, 200.0), (350.0, 50.0, 10.0),
        (373.15, 50.0, 1.0), (394.15, 50.0, 0.5), (420.0, 50.0, 0.5))  # at 53 bits alone
HOT = ((450.0, 4000.0, 1500.0), (475.0, 1500.0, 200.0), (500.0, 1000.0, 30.0), (525.0, 1000.0, 6.0),
       (550.0, 500.0, 2.0), (575.0, 500.0, 1.0), (600.0, 500.0, 1.0), (620.0, 500.0, 1.0), (630.0, 500.0, 1.0),
       (640.0, 500.0, 1.0))


def rig_plugs():
    """The same by the 58-row table."""
    for T, *tolerances in COOL + HOT:
        yield found_at(T, 58) + tuple(tolerances)
    (T, liquid, vapour), tolerances = found_at(600.0, 58), (500.0, 1.0)
    yield (T, rounded(liquid + 0.05), vapour) + tolerances  # a liquid that is too dense: 9
    yield (T, liquid, rounded(vapour * 0.9999), 2000.0, 1.0)  # a vapour that is too thin: 10
    yield (T, liquid, vapour, 20.0, 0.1)  # the pair itself, tolerances for 53 bits: 9 at 32, 0 at 53
    yield (T, vapour, liquid) + tolerances  # the wrong way round: 7
    yield (T, 2576.5, vapour) + tolerances  # denser than any water: 4
    yield (T, 1500.0, vapour) + tolerances  # a liquid that the nine-byte table does not take: 9
    yield (260.0, liquid, vapour) + tolerances  # the state sheet goes down to 252 K, the pair check does not: 3


def odd_plugs():
    """The same at 394.15 K with the odd table."""
    T, wide = 394.15, (1e6, 1e6)
    yield (T, 494.77736, 7.668745) + TOLERANCES  # in balance, and the vapour pushes: 0
    yield (T, 476.11653, 267.05587) + TOLERANCES  # in balance with both pressures below zero: 21, and 0 before 02 f
    yield (T, 476.11653, 267.05587, 0.0, 0.0)  # 21 is asked before the gaps: 9 before 02 f
    yield (T, 476.11653, 7.668745) + wide  # a liquid below zero and a vapour above: 9
    yield (T, 495.51006, 10.0) + TOLERANCES  # the pressures balance, the Gibbs energies do not: 10
    yield (T, 492.63292, 64.0) + wide  # a vapour that pushes, but does not push back when squeezed: 11


def packed(plugs):
    return b"".join(struct.pack(">5d", *plug) for plug in plugs)


def answers(width, kind, table, plugs):
    """The second program's lines."""
    with open(os.path.join(HERE, table), "rb") as file:
        return "".join(line + "\n" for line in lines(width, kind, file.read(), packed(plugs)))


FILES = ((32, 38, "proposals.bin", "lines.txt", "terms.bin", plugs),
         (53, 38, "proposals.bin", "lines53.txt", "terms.bin", plugs),
         (32, 38, "odd_proposals.bin", "odd_lines.txt", "odd.bin", odd_plugs),
         (53, 38, "odd_proposals.bin", "odd_lines53.txt", "odd.bin", odd_plugs),
         (32, 58, "proposals58.bin", "lines58.txt", "terms58.bin", rig_plugs),
         (53, 58, "proposals58.bin", "lines58_53.txt", "terms58.bin", rig_plugs))

if __name__ == "__main__":
    for width, kind, proposals, answered, table, make in FILES:
        with open(os.path.join(HERE, proposals), "wb") as file:
            file.write(packed(make()))
        with open(os.path.join(HERE, answered), "w", newline="\n") as file:
            file.write(answers(width, kind, table, make()))
