"""Brackets against the equation itself at levels 256 and 300: random states and pairs lie in their brackets.

Densities and temperatures have few bits, so that the exact fractions stay small and a few hundred states take
seconds; the levels' exponentials are shared between pressure, stiffness and Gibbs gap.
"""

import random as randoms
from fractions import Fraction

from second.bracket import Bracket
from second.equation import exponential, gibbs_gap, phase, pressure, stiffness
from second.exact import fraction
from second.f64 import exact, word
from second.kind import NINE, TWELVE
from second.level import exponential_at, gibbs_gap_at, pressure_at, stiffness_at
from second.logarithm import logarithm_of_ratio
from second.sheet import down, up
from second.term import terms_of
from second.tests import samples
from second.tests.samples import holds
from second.verdict import WIDTHS

LEVELS = (256, 300)
ENDS = [(273.0, 2.0 ** -10), (273.0, 1288.0), (1273.0, 2.0 ** -10), (1273.0, 1288.0), (647.0, 322.0)]


def temperature(random, kind=NINE):
    return float(random.randint(*map(int, samples.ends_of(kind.temperatures))))


def density(random, low=-10, high=10, kind=NINE):
    """Five digits, times a power of two."""
    return min(samples.ends_of(kind.densities)[1], random.randint(16, 31) * 2.0 ** (random.randint(low, high) - 4))


def tables(random, count, kind=NINE):
    """The paper's table half of the time, else a random sound one."""
    for i in range(count):
        table = samples.water(kind)
        if i % 2:
            table = samples.sound_table(random, random.choice([1, 3, 8] + [64] * (kind == NINE)), kind=kind)
        yield tuple(terms_of(kind, table))


def check_state(bits, terms, T, rho):
    T, rho = exact(word(T)), exact(word(rho))
    state = phase(bits, terms, T, rho)
    for N in LEVELS:
        assert holds(pressure(state), pressure_at(N, terms, fraction(T), fraction(rho)))
        assert holds(stiffness(state), stiffness_at(N, terms, fraction(T), fraction(rho)))
    return state


def test_states_cover_the_equation():
    random = randoms.Random(31)
    for terms in tables(random, 200):
        T, rho = temperature(random), density(random)
        for width in WIDTHS:
            check_state(width, terms, T, rho)


def test_ends_of_the_range():
    random = randoms.Random(32)
    for terms in tables(random, 4):
        for T, rho in ENDS:
            for width in WIDTHS:
                check_state(width, terms, T, rho)


def test_f64s_of_all_digits():
    random = randoms.Random(33)
    for terms in tables(random, 10):
        T, rho = random.uniform(273, 1273), 2 ** random.uniform(-10, 10)
        for bits in (16,) + WIDTHS:
            check_state(bits, terms, T, rho)


def check_pair(width, terms, T, liquid, vapour):
    heavy, light = check_state(width, terms, T, liquid), check_state(width, terms, T, vapour)
    T, liquid, vapour = (exact(word(x)) for x in (T, liquid, vapour))
    gap = gibbs_gap(heavy, light, logarithm_of_ratio(width, liquid, vapour))
    for N in LEVELS:
        assert holds(gap, gibbs_gap_at(N, terms, *map(fraction, (T, liquid, vapour))))


def test_pairs_cover_the_equation():
    random = randoms.Random(34)
    for terms in tables(random, 100):
        T, liquid, vapour = temperature(random), density(random, 9, 10), density(random, -10, 7)
        if liquid < vapour:
            continue
        for width in WIDTHS:
            check_pair(width, terms, T, liquid, vapour)


def test_tables_of_the_longer_record():
    """States and pairs up to 2576 kg/m3, where exponentials are cut off; the equation's own are not."""
    random = randoms.Random(35)
    for i, terms in enumerate(tables(random, 40, TWELVE)):
        T, liquid = temperature(random, TWELVE), density(random, 9, 11, TWELVE) if i % 4 else 2576.0
        vapour = density(random, -10, 7)
        for width in WIDTHS:
            check_pair(width, terms, T, liquid, vapour)


def test_ends_of_the_longer_range():
    random = randoms.Random(36)
    for terms in tables(random, 2, TWELVE):
        for T in (252.0, 1273.0):
            for rho in (2.0 ** -10, 2576.0):
                for width in WIDTHS:
                    check_state(width, terms, T, rho)


def test_exponentials_that_are_cut_off():
    """The equation's own lies in the bracket for every g, above 128 too, and for a bracket that reaches over it."""
    for bits in WIDTHS:
        for low, high in ((100, 100), (127, 129), (128, 128), (128, 129), (129, 129), (0, 200), (1000, 1001),
                          (2 ** 48, 2 ** 48 + 1)):
            b = exponential(Bracket(bits, down(bits, low), up(bits, high)))
            for x in (low, Fraction(low + high, 2), high):
                assert all(holds(b, exponential_at(N, Fraction(x))) for N in LEVELS)
