"""The equation itself at a level N, on exact fractions (01, "The equation itself"; 02 h).  No sheet number occurs here,
and no exponential is cut off: g may be of any size.

T and densities are Fractions; assumes them above zero and the terms of a sound table, of either kind.
"""

from fractions import Fraction
from functools import lru_cache

from .term import HUNDRED, UNIT

CRITICAL_TEMPERATURE = Fraction("647.14")
CRITICAL_DENSITY = Fraction(322)
GAS_CONSTANT = Fraction("461.51805")


@lru_cache(maxsize=256)
def exponential_at(N, x):
    """1 over the sum of x^k/k! for k to N, from the innermost addend out."""
    p, q = x.numerator, x.denominator
    top, bottom = 1, 1
    for k in range(N, 0, -1):
        # one more addend: 1 + (x/k)(top/bottom)
        top, bottom = k * q * bottom + p * top, k * q * bottom
    return Fraction(bottom, top)


@lru_cache(maxsize=256)
def series_at(N, z):
    """Twice the sum of z^(2j+1)/(2j+1) for j to N, from the innermost addend out."""
    p, q = z.numerator ** 2, z.denominator ** 2
    top, bottom = 0, 1
    for j in range(N, -1, -1):
        # one more addend: 1/(2j+1) + z^2 (top/bottom)
        top, bottom = q * bottom + (2 * j + 1) * p * top, (2 * j + 1) * q * bottom
    return 2 * z * Fraction(top, bottom)


def logarithm_at(N, liquid, vapour):
    k = 0
    while vapour * 2 ** (k + 1) <= liquid:
        k += 1
    r = liquid / (vapour * 2 ** k)
    return k * series_at(N, Fraction(1, 3)) + series_at(N, (r - 1) / (r + 1))


@lru_cache(maxsize=256)
def sums_at(N, terms, T, rho):
    """S0, S1, S2 without any rounding.  Terms of one c and factor are summed first: the large exponential then enters
    once."""
    delta, tau = rho / CRITICAL_DENSITY, CRITICAL_TEMPERATURE / T
    sums = [Fraction(0)] * 3
    for c, factor in sorted({(term.c, term.factor) for term in terms}):
        part = [Fraction(0)] * 3
        for term in terms:
            if (term.c, term.factor) == (c, factor):
                part = [s + v for s, v in zip(part, addends(term, delta, tau))]
        common = Fraction(1) if c == 0 else exponential_at(N, exponent(c, factor, delta))
        sums = [s + v * common for s, v in zip(sums, part)]
    return sums


def exponent(c, factor, delta):
    """02 h's g; zero without c, where the factor is none."""
    return Fraction(factor, HUNDRED) * delta ** c


def addends(term, delta, tau):
    """What one term adds to the three sums, its exponential left out."""
    v = Fraction(term.numerator(), UNIT) * delta ** term.d * tau ** term.t
    g = exponent(term.c, term.factor, delta)
    w = term.d - term.c * g
    return v, v * w, v * (w * (w - 1) - term.c ** 2 * g)


def pressure_at(N, terms, T, rho):
    _, s1, _ = sums_at(N, terms, T, rho)
    return rho * GAS_CONSTANT * T * (1 + s1)


def stiffness_at(N, terms, T, rho):
    _, s1, s2 = sums_at(N, terms, T, rho)
    return GAS_CONSTANT * T * (1 + 2 * s1 + s2)


def gibbs_gap_at(N, terms, T, liquid, vapour):
    l0, l1, _ = sums_at(N, terms, T, liquid)
    v0, v1, _ = sums_at(N, terms, T, vapour)
    return GAS_CONSTANT * T * (logarithm_at(N, liquid, vapour) + (l0 + l1) - (v0 + v1))
