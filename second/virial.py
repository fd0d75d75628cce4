"""The vapour card: the second and third virial coefficients, B and C, and the pressure of their polynomial, as brackets
and without any rounding (02 i).  No series occurs here, so there is no level.

Any width, any bytes and any f64s (as their 64 bits) are answered; the rules assume the terms of a sound table of
nine-byte terms, and a T above zero.
"""

from fractions import Fraction
from typing import NamedTuple, Union

from . import f64, level
from .bracket import Bracket, given, whole
from .equation import CRITICAL_DENSITY, CRITICAL_TEMPERATURE, GAS_CONSTANT
from .kind import NINE
from .term import UNIT, terms_of
from .verdict import first_refusal, refused, with_ends, within

TEMPERATURES = ((273, 1, 0), (1123, 1, 0))  # of the profile, as are the densities
DENSITIES = ((1, 1, -10), (55, 1, 0))
ENDS = 6

Value = Union[Bracket, Fraction]


class Card(NamedTuple):
    B: Value
    C: Value
    pressure: Value


# Which terms count, in table order.

def linear(terms):
    return [term for term in terms if term.d == 1]


def square(terms):
    return [term for term in terms if term.d == 2]


def damped(terms):
    """Of the linear ones those whose exponential takes part in C."""
    return [term for term in linear(terms) if term.c == 1]


# By the sheet rules; T and density are exact triples.

def total(terms, tau):
    """Coefficient times tau^t, summed from zero."""
    found = whole(tau.bits, 0)
    for term in terms:
        found = found + given(tau.bits, term.numerator(), UNIT) * tau ** term.t
    return found


def second_coefficient(terms, tau):
    return total(linear(terms), tau) / CRITICAL_DENSITY


def third_coefficient(terms, tau):
    critical = whole(tau.bits, CRITICAL_DENSITY)
    return (2 * (total(square(terms), tau) - total(damped(terms), tau))) / (critical * critical)


def card(bits, terms, T, rho):
    T, rho, R = given(bits, *T), given(bits, *rho), given(bits, *GAS_CONSTANT)
    tau = given(bits, *CRITICAL_TEMPERATURE) / T
    B, C = second_coefficient(terms, tau), third_coefficient(terms, tau)
    return Card(B, C, ((rho * R) * T) * ((1 + (B * rho)) + ((C * rho) * rho)))


def vapour_card(width, table, T, rho):
    """19, 1 and 2, then 3 and 4 by the profile's limits.  There is no ceiling."""
    early = first_refusal(width, NINE.number, table)
    if early:
        return refused(*early, ends=ENDS)
    if not within(T, TEMPERATURES):
        return refused(3, ends=ENDS)
    if not within(rho, DENSITIES):
        return refused(4, ends=ENDS)
    return with_ends(0, *card(width, terms_of(NINE, table), f64.exact(T), f64.exact(rho)))


# Without any rounding; T and density are Fractions.

def exact_total(terms, tau):
    return sum((Fraction(term.numerator(), UNIT) * tau ** term.t for term in terms), Fraction(0))


def exact_card(terms, T, rho):
    tau = level.CRITICAL_TEMPERATURE / T
    B = exact_total(linear(terms), tau) / level.CRITICAL_DENSITY
    C = 2 * (exact_total(square(terms), tau) - exact_total(damped(terms), tau)) / level.CRITICAL_DENSITY ** 2
    return Card(B, C, rho * level.GAS_CONSTANT * T * (1 + B * rho + C * rho ** 2))
