"""State sheet, density check and pair check, with the table of numbers in order (01, "Inputs" and "Verdicts"; 02 b, d,
f and h).

Any width, any kind, any bytes and any f64s (as their 64 bits) are answered; assumes nothing.
"""

from typing import NamedTuple, Tuple

from . import f64
from .bracket import given
from .equation import gibbs_gap, phase, pressure, stiffness
from .exact import at_most, below, negated
from .kind import KINDS
from .logarithm import logarithm_of_ratio
from .sheet import exact
from .term import table_refusal, terms_of

WIDTHS = (32, 53)  # counts of bits
PAIR_TEMPERATURES = ((27316, 100, 0), (1273, 1, 0))  # of the pair check, from the triple point on
TOLERANCES = ((0, 1, 0), (10 ** 6, 1, 0))
DIVIDE = (322, 1, 0)  # liquid above, vapour below


class Answer(NamedTuple):
    number: int
    place: int
    ends: Tuple[int, ...]  # bits of f64s


def refused(number, place=0, ends=2):
    return Answer(number, place, (0,) * ends)


def with_ends(number, *brackets):
    return Answer(number, 0, tuple(f64.of_sheet(end) for b in brackets for end in (b.lower, b.upper)))


def within(word, limits):
    low, high = limits
    x = f64.exact(word)
    return x is not None and at_most(low, x) and at_most(x, high)


def on_their_sides(liquid, vapour):
    """Asked only of densities in range, which are finite."""
    return below(DIVIDE, f64.exact(liquid)) and below(f64.exact(vapour), DIVIDE)


def first_refusal(width, kind, table):
    """What every call asks first: number 19, then 29, then 1 and 2."""
    if width not in WIDTHS:
        return 19, 0
    if kind not in KINDS:
        return 29, 0
    return table_refusal(KINDS[kind], table)


def too_high(kind, bracket):
    return below(kind.ceiling, exact(bracket.upper))


def gap_passes(gap, tolerance):
    """The whole bracket lies within the tolerance, taken by its exact value."""
    limit = f64.exact(tolerance)
    return at_most(negated(limit), exact(gap.lower)) and at_most(exact(gap.upper), limit)


def pushes(bracket):
    """The lower end is above zero: asked of a stiffness, and of the vapour's pressure."""
    return bracket.lower[0] > 0


def state_sheet(width, kind, table, T, rho):
    early = first_refusal(width, kind, table)
    if early:
        return refused(*early, ends=4)
    kind = KINDS[kind]
    if not within(T, kind.temperatures):
        return refused(3, ends=4)
    if not within(rho, kind.densities):
        return refused(4, ends=4)
    state = phase(width, terms_of(kind, table), f64.exact(T), f64.exact(rho))
    if too_high(kind, pressure(state)):
        return refused(8, ends=4)
    return with_ends(0, pressure(state), stiffness(state))


def density_check(width, kind, table, T, rho, target, tolerance):
    early = first_refusal(width, kind, table)
    if early:
        return refused(*early)
    kind = KINDS[kind]
    if not within(T, kind.temperatures):
        return refused(3)
    if not within(rho, kind.densities):
        return refused(4)
    if not within(target, kind.targets):
        return refused(5)
    if not within(tolerance, TOLERANCES):
        return refused(6)
    state = phase(width, terms_of(kind, table), f64.exact(T), f64.exact(rho))
    if too_high(kind, pressure(state)):
        return refused(8)
    gap = pressure(state) - given(width, *f64.exact(target))
    if not gap_passes(gap, tolerance):
        return with_ends(9, gap)
    if not pushes(stiffness(state)):
        return with_ends(11, stiffness(state))
    return with_ends(0, pressure(state))


def pair_check(width, kind, table, T, liquid, vapour, pressure_tolerance, gibbs_tolerance):
    early = first_refusal(width, kind, table)
    if early:
        return refused(*early)
    kind = KINDS[kind]
    if not within(T, PAIR_TEMPERATURES):
        return refused(3)
    if not (within(liquid, kind.densities) and within(vapour, kind.densities)):
        return refused(4)
    if not (within(pressure_tolerance, TOLERANCES) and within(gibbs_tolerance, TOLERANCES)):
        return refused(6)
    if not on_their_sides(liquid, vapour):
        return refused(7)
    T, liquid, vapour = f64.exact(T), f64.exact(liquid), f64.exact(vapour)
    terms = terms_of(kind, table)
    heavy, light = phase(width, terms, T, liquid), phase(width, terms, T, vapour)
    if too_high(kind, pressure(heavy)) or too_high(kind, pressure(light)):
        return refused(8)
    if not pushes(pressure(light)):
        return with_ends(21, pressure(light))
    return balance(heavy, light, logarithm_of_ratio(width, liquid, vapour), pressure_tolerance, gibbs_tolerance)


def balance(heavy, light, ln_q, pressure_tolerance, gibbs_tolerance):
    """What the pair check asks behind 21 of a liquid and a vapour, with the logarithm of their ratio: 9, 10 and 11."""
    gap = pressure(heavy) - pressure(light)
    if not gap_passes(gap, pressure_tolerance):
        return with_ends(9, gap)
    gap = gibbs_gap(heavy, light, ln_q)
    if not gap_passes(gap, gibbs_tolerance):
        return with_ends(10, gap)
    for state in (heavy, light):
        if not pushes(stiffness(state)):
            return with_ends(11, stiffness(state))
    return with_ends(0, pressure(light))
