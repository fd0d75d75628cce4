"""Pressure, stiffness and Gibbs gap as brackets, by the step rules (01, "The equation, step by step"; 02 h).

T and densities come as exact triples within the documents' ranges; assumes the terms of a sound table, of either kind.
Every bracketing and every order of sums is the documents'.
"""

from typing import NamedTuple

from .bracket import Bracket, given, whole
from .exact import at_most, least
from .exponential import GREATEST, exponential_of_minus
from .logarithm import logarithm_of_ratio
from .sheet import ZERO, exact
from .term import HUNDRED, UNIT

CRITICAL_TEMPERATURE = (64714, 100)
CRITICAL_DENSITY = 322
GAS_CONSTANT = (46151805, 100000)


class Phase(NamedTuple):
    """One state with its three sums, which all readings are made of."""
    T: Bracket
    rho: Bracket
    R: Bracket
    s0: Bracket
    s1: Bracket
    s2: Bracket


def phase(bits, terms, T, rho):
    T, rho = given(bits, *T), given(bits, *rho)
    delta = rho / CRITICAL_DENSITY
    tau = given(bits, *CRITICAL_TEMPERATURE) / T
    return Phase(T, rho, given(bits, *GAS_CONSTANT), *sums(terms, delta, tau))


def sums(terms, delta, tau):
    s0 = s1 = s2 = whole(delta.bits, 0)
    for term in terms:
        g = exponent(term, delta)
        v, w = value(term, g, delta, tau), weight(term, g)
        s0 = s0 + v
        s1 = s1 + v * w
        s2 = s2 + v * second_weight(term, g, w)
    return s0, s1, s2


def exponent(term, delta):
    """02 h's g: the factor, a given value, times delta^c.  It is not used without c."""
    return given(delta.bits, term.factor, HUNDRED) * delta ** term.c


def exponential(g):
    """E for c of 1 or more.  Where g may be above 128 it is from 0 to the rule's upper end at 128, or at g's lower end
    if that is smaller."""
    if at_most(exact(g.upper), GREATEST):
        return exponential_of_minus(g)
    p, _, e = least([exact(g.lower), GREATEST])
    return Bracket(g.bits, ZERO, exponential_of_minus(given(g.bits, p, 1, e)).upper)


def value(term, g, delta, tau):
    """01's V.  Without c there is no exponential at all."""
    coefficient = given(delta.bits, term.numerator(), UNIT)
    factor = whole(delta.bits, 1) if term.c == 0 else exponential(g)
    return ((coefficient * delta ** term.d) * tau ** term.t) * factor


def weight(term, g):
    """01's w."""
    d = whole(g.bits, term.d)
    return d if term.c == 0 else d - (term.c * g)


def second_weight(term, g, w):
    """What V is multiplied with in S2."""
    product = w * (w - 1)
    return product if term.c == 0 else product - (term.c ** 2 * g)


def pressure(state):
    return ((state.rho * state.R) * state.T) * (1 + state.s1)


def stiffness(state):
    return (state.R * state.T) * ((1 + (2 * state.s1)) + state.s2)


def gibbs_gap(liquid, vapour, ln_q):
    """Liquid less vapour, from two phases of one temperature and the logarithm of their density ratio."""
    return (liquid.R * liquid.T) * (ln_q + ((liquid.s0 + liquid.s1) - (vapour.s0 + vapour.s1)))


def gibbs_gap_of(bits, terms, T, liquid, vapour):
    return gibbs_gap(phase(bits, terms, T, liquid), phase(bits, terms, T, vapour),
                     logarithm_of_ratio(bits, liquid, vapour))
