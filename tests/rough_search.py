"""A rough search for saturation pairs, in floats: it only makes proposals, and nothing rests on it.

`pair(T)` gives liquid and vapour density for T from 273 K to about 646.9 K, by Table 5; with 58 as the last parameter
it and the readings are by Table 4.  Assumes data/terms.bin and data/terms58.bin.
`python3 tests/rough_search.py T...` prints T, liquid, vapour and pressure of each, by Table 5 and by Table 4.
"""

import math
import os
import sys

ROOT = os.path.dirname(os.path.dirname(os.path.abspath(__file__)))
sys.path.insert(0, ROOT)

from second.kind import KINDS, NINE  # noqa: E402
from second.term import HUNDRED, UNIT, terms_of  # noqa: E402

TC, RHOC, R = 647.14, 322.0, 461.51805
FILES = {38: "terms.bin", 58: "terms58.bin"}  # the paper's tables, by kind


def rows_of(kind, table):
    """c, factor, d, t and coefficient of each term."""
    return [(term.c, term.factor / HUNDRED, term.d, term.t, term.numerator() / UNIT) for term in terms_of(kind, table)]


def rows(kind):
    with open(os.path.join(ROOT, "data", FILES[kind.number]), "rb") as file:
        return rows_of(kind, file.read())


ROWS = {number: rows(kind) for number, kind in KINDS.items()}


def one_by_one(addends):
    total = 0.0
    for x in addends:
        total += x
    return total


def sums(T, rho, table):
    """S0, S1, S2.  Where terms have factors they are summed without rounding: Table 4 has two terms for each of its
    last four rows, and in thin cold vapour these are large and nearly cancel."""
    delta, tau = rho / RHOC, TC / T
    addends = []
    for c, factor, d, t, a in table:
        g = factor * delta ** c
        v = a * delta ** d * tau ** t * (math.exp(-g) if c else 1.0)
        w = d - c * g
        addends.append((v, v * w, v * (w * (w - 1) - c * (c * g))))
    factors = any(factor not in (0, 1) for _, factor, *_ in table)
    return tuple(map(math.fsum if factors else one_by_one, zip(*addends)))


def pressure(T, rho, kind=NINE.number):
    return rho * R * T * (1 + sums(T, rho, ROWS[kind])[1])


def stiffness(T, rho, kind=NINE.number):
    _, s1, s2 = sums(T, rho, ROWS[kind])
    return R * T * (1 + 2 * s1 + s2)


def gibbs(T, rho, kind=NINE.number):
    """Up to what depends on T alone, which cancels between the phases."""
    s0, s1, _ = sums(T, rho, ROWS[kind])
    return R * T * (math.log(rho) + s0 + s1)


def first_guess(T):
    """Saturation densities that are near enough to start from (the known auxiliary equations of water)."""
    x = max(1 - T / TC, 1e-9)
    heavy = 1 + (1.99274064 * x ** (1 / 3) + 1.09965342 * x ** (2 / 3) - 0.510839303 * x ** (5 / 3)
                 - 1.75493479 * x ** (16 / 3) - 45.5170352 * x ** (43 / 3) - 6.7469445e5 * x ** (110 / 3))
    light = math.exp(-2.0315024 * x ** (1 / 3) - 2.6830294 * x ** (2 / 3) - 5.38626492 * x ** (4 / 3)
                     - 17.2991605 * x ** 3 - 44.7586581 * x ** (37 / 6) - 63.9201063 * x ** (71 / 6))
    return RHOC * heavy, RHOC * light


def newton(T, heavy, light, kind):
    """Both phases at equal pressure and equal Gibbs energy; dg = dp/rho along an isotherm."""
    for _ in range(60):
        gap = pressure(T, heavy, kind) - pressure(T, light, kind)
        gibbs_gap = gibbs(T, heavy, kind) - gibbs(T, light, kind)
        a, b = stiffness(T, heavy, kind), stiffness(T, light, kind)
        # a dh - b dl = -gap and (a/heavy) dh - (b/light) dl = -gibbs_gap
        det = a * b * (1 / heavy - 1 / light)
        if det == 0:
            return None
        dh = (gap * b / light - gibbs_gap * b) / det
        dl = (gap * a / heavy - gibbs_gap * a) / det
        step = min(1.0, 0.2 * heavy / (abs(dh) + 1e-300), 0.3 * light / (abs(dl) + 1e-300))
        heavy, light = heavy + step * dh, light + step * dl
        if abs(dh) < 1e-13 * heavy and abs(dl) < 1e-13 * light:
            break
    return heavy, light


def pair(T, kind=NINE.number):
    """(liquid, vapour) at T; None where the search does not settle on two phases."""
    found = newton(T, *first_guess(T), kind)
    if found is None:
        return None
    heavy, light = found
    if not (heavy > RHOC > light > 0 and stiffness(T, heavy, kind) > 0 and stiffness(T, light, kind) > 0):
        return None
    if abs(pressure(T, heavy, kind) / pressure(T, light, kind) - 1) > 1e-3:
        return None
    return found


if __name__ == "__main__":
    for argument in sys.argv[1:] or ["273.16", "300", "373.15", "500", "600", "645"]:
        T = float(argument)
        for kind in KINDS:
            found = pair(T, kind)
            print(T, kind, *(found + (pressure(T, found[1], kind),) if found else ("no pair",)))
