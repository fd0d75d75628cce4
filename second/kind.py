"""The two kinds of table, and all that depends on them: the term's fields and the limits (01, "Inputs" and "The packed
term"; 02 b and h).  The pair check's own range of T, and what else does not depend on the kind, is in verdict.py.

A call names the kind by its number: 38 (nine-byte terms) or 58 (twelve-byte terms).
"""

from typing import NamedTuple, Tuple

MOST = 64  # terms of a table
Exact = Tuple[int, int, int]  # a triple of exact.py


class Kind(NamedTuple):
    number: int
    size: int  # bytes of a term
    fields: Tuple[Tuple[str, int], ...]  # name and count of bits of each, most significant bit first
    largest_t: int
    temperatures: Tuple[Exact, Exact]  # of the state sheet and the density check
    densities: Tuple[Exact, Exact]
    targets: Tuple[Exact, Exact]
    ceiling: Exact

    def widest(self, name):
        """The largest number that the field holds."""
        return (1 << dict(self.fields)[name]) - 1


NINE = Kind(38, 9, (("c", 2), ("d", 4), ("t", 5), ("negative", 1), ("magnitude", 60)), 24,
            ((273, 1, 0), (1273, 1, 0)), ((1, 1, -10), (1288, 1, 0)), ((0, 1, 0), (10 ** 9, 1, 0)), (10 ** 9, 1, 0))
TWELVE = Kind(58, 12, (("c", 4), ("factor", 10), ("d", 5), ("t", 6), ("negative", 1), ("magnitude", 60), ("spare", 10)),
              63, ((252, 1, 0), (1273, 1, 0)), ((1, 1, -10), (2576, 1, 0)), ((0, 1, 0), (25 * 10 ** 9, 1, 0)),
              (25 * 10 ** 9, 1, 0))
KINDS = {kind.number: kind for kind in (NINE, TWELVE)}
