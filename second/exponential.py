"""The exponential of minus x, for a bracket x from 0 to 128 (01, "Exponential of minus x").  Assumes that range.

No number of the sum is below zero, so its lower ends are made of lower ends alone, and its upper ends of upper ones;
the tests hold this to the rule over all ends.
"""

from functools import lru_cache

from .bracket import Bracket
from .sheet import down, exact_product, exact_quotient, exact_sum, up

LAST = 256
GREATEST = (128, 1, 0)  # x, as a triple of exact.py


def summed(bits, rounded, x):
    """One end of the sum and of its last term, from one end of x: rounded is down for lower ends, up for upper ones."""
    term = total = rounded(bits, 1)
    for k in range(1, LAST + 1):
        product = rounded(bits, *exact_product(term, x))
        term = rounded(bits, *exact_quotient(product, (k, 0)))
        total = rounded(bits, *exact_sum(total, term))
    return total, term


@lru_cache(maxsize=64)  # terms of one c and one factor share their exponential
def exponential_of_minus(x):
    lower, _ = summed(x.bits, down, x.lower)
    upper, last = summed(x.bits, up, x.upper)
    return 1 / Bracket(x.bits, lower, up(x.bits, *exact_sum(upper, last)))
