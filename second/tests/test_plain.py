"""The second program's ends against the same rules in plain Fractions, on a few pairs: equal, not merely close."""

import random as randoms
from fractions import Fraction

from second import equation, f64
from second.bracket import Bracket, given
from second.exact import fraction
from second.exponential import exponential_of_minus
from second.kind import NINE, TWELVE
from second.sheet import ZERO, down, exact, up
from second.term import Term, terms_of
from second.tests import samples
from second.tests.plain import Plain
from second.tests.samples import at_each_width


def ends(b):
    return fraction(exact(b.lower)), fraction(exact(b.upper))


def check_pair(width, terms, T, liquid, vapour):
    plain = Plain(width)
    words = [f64.exact(f64.word(x)) for x in (T, liquid, vapour)]
    T, liquid, vapour = map(fraction, words)
    sums = []
    for rho, word in ((liquid, words[1]), (vapour, words[2])):
        s = plain.sums(terms, T, rho)
        state = equation.phase(width, terms, words[0], word)
        assert tuple(map(ends, state[-3:])) == s
        assert ends(equation.pressure(state)) == plain.pressure(T, rho, s)
        assert ends(equation.stiffness(state)) == plain.stiffness(T, s)
        sums.append(s)
    assert ends(equation.gibbs_gap_of(width, terms, *words)) == plain.gibbs_gap(T, liquid, vapour, *sums)


@at_each_width
def test_table5(width):
    random = randoms.Random(41)
    terms = terms_of(NINE, samples.table5())
    check_pair(width, terms, 373.15, 958.375, 0.5975)
    check_pair(width, terms, random.uniform(273, 1273), 1288.0, 2.0 ** -10)


@at_each_width
def test_random_tables(width):
    random = randoms.Random(42)
    for _ in range(3):
        terms = terms_of(NINE, samples.sound_table(random, 8))
        check_pair(width, terms, random.uniform(273, 1273), random.uniform(322, 1288), 2 ** random.uniform(-10, 8))


@at_each_width
def test_tables_of_the_longer_record(width):
    """Factors of all sizes, and exponentials that are cut off."""
    random = randoms.Random(43)
    for densest in (644, 2576):
        terms = terms_of(TWELVE, samples.sound_table(random, 3, kind=TWELVE))
        check_pair(width, terms, random.uniform(252, 1273), random.uniform(densest / 2, densest),
                   2 ** random.uniform(-10, 8))
    terms = [Term(1, 1023, 1, 0, 0, 10 ** 15), Term(6, 200, 2, 3, 1, 10 ** 14), Term(15, 1, 31, 63, 0, 1)]
    check_pair(width, terms, 252.0, 2576.0, 2.0 ** -10)


@at_each_width
def test_the_exponential_that_is_cut_off(width):
    """Both sides of 128, and brackets that reach over it."""
    plain = Plain(width)
    inside, outside = Fraction(128), Fraction(129)
    for low, high in ((inside, inside), (inside, outside), (Fraction(127), inside), (Fraction(127), outside),
                      (outside, outside), (Fraction(0), outside), (Fraction(1, 3), outside), (outside, 2 ** 60)):
        g = Bracket(width, *(down(width, *Fraction(x).as_integer_ratio()) for x in (low, high)))
        expected = plain.exponential(ends(g)) if high <= 128 else plain.cut_off(ends(g))
        assert ends(equation.exponential(g)) == expected
        assert (equation.exponential(g).lower == ZERO) == (high > 128)
    just = Bracket(width, (2 ** (width - 1), 8 - width), up(width, 2 ** 60 + 1, 1, -53))
    assert fraction(exact(just.lower)) == 128 < fraction(exact(just.upper))
    assert ends(equation.exponential(just)) == (0, plain.exponential((inside, inside))[1])


@at_each_width
def test_exponential(width):
    plain = Plain(width)
    for x in (0, 1, 3, 64, 128):
        assert ends(exponential_of_minus(given(width, x))) == plain.exponential(plain.given(x))
