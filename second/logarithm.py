"""The logarithm of a density ratio (01, "Logarithm of a density ratio").

Densities come as exact triples; assumes both above zero and liquid not below vapour.
"""

from functools import lru_cache

from .bracket import add_last, given, whole
from .exact import at_most

LAST = 20


def doublings(liquid, vapour):
    """The largest k with 2^k <= liquid/vapour, on the exact inputs."""
    p, q, e = vapour
    k = 0
    while at_most((p, q, e + k + 1), liquid):
        k += 1
    return k


def series(z):
    """ln((1 + z)/(1 - z)): odd powers of z over their exponents, the guard, and all of it doubled."""
    square = z * z
    odd_power = z
    total = quotient = z / 1
    for j in range(1, LAST + 1):
        odd_power = odd_power * square
        quotient = odd_power / (2 * j + 1)
        total = total + quotient
    return 2 * add_last(total, quotient)


@lru_cache(maxsize=None)
def ln_2(bits):
    return series(given(bits, 1, 3))


def logarithm_of_ratio(bits, liquid, vapour):
    k = doublings(liquid, vapour)
    r = given(bits, *liquid) / (given(bits, *vapour) * whole(bits, 2 ** k))
    z = (r - 1) / (r + 1)
    return (k * ln_2(bits)) + series(z)
