#!/usr/bin/env python3
"""Prints pressure and stiffness at the critical point, 647.14 K and 322 kg/m3, by the second program's state sheet:
what Table 4 gives at 53 bits and at 32, and what it would give at 53 bits with the factor 0.48 that (7.3) prints.

Document 001 constrained its equation to 22.064 MPa there, with no stiffness.  `python3 tests/critical_point.py`, from
any directory; with the words `sh tests/run equation_lines` behind it, the library's own values.  Assumes
data/terms58.bin.
"""

import os
import struct
import subprocess
import sys

ROOT = os.path.dirname(os.path.dirname(os.path.abspath(__file__)))
sys.path.insert(0, ROOT)

from second import f64  # noqa: E402
from second.kind import TWELVE  # noqa: E402
from second.term import table_of, terms_of  # noqa: E402
from second.verdict import state_sheet  # noqa: E402


def ends_of(width, table):
    """The bits of the four ends, by the second program or by the program that is named."""
    T, rho = f64.word(647.14), f64.word(322.0)
    if len(sys.argv) == 1:
        answer = state_sheet(width, TWELVE.number, table, T, rho)
        assert answer.number == 0
        return answer.ends
    record = struct.pack(">3Q", width, TWELVE.number, len(table)) + table + bytes(-len(table) % 8)
    done = subprocess.run(sys.argv[1:], input=record + struct.pack(">2Q", T, rho), stdout=subprocess.PIPE, check=True)
    return [int(word, 16) for word in done.stdout.split()]


def printed(width, table, label):
    ends = [struct.unpack(">d", struct.pack(">Q", end))[0] for end in ends_of(width, table)]
    print("%s, at %d bits" % (label, width))
    print("    pressure   from %.6f to %.6f Pa" % tuple(ends[:2]))
    print("    stiffness  from %.6f to %.6f Pa m3/kg" % tuple(ends[2:]))


def main():
    with open(os.path.join(ROOT, "data", "terms58.bin"), "rb") as file:
        table = file.read()
    print("At 647.14 K and 322 kg/m3, where document 001 has 22064000 Pa and a stiffness of zero:")
    for width in (53, 32):
        printed(width, table, "Table 4")
    other = [term._replace(factor=48) if term.factor == 40 else term for term in terms_of(TWELVE, table)]
    printed(53, table_of(TWELVE, other), "Table 4 with the factor 0.48 in place of 0.40")


if __name__ == "__main__":
    main()
