"""Brackets: the operators against the one rule over the ends, powers, P9, P10, and the two series."""

import random as randoms
from fractions import Fraction

from second import f64
from second.bracket import Bracket, given, over_ends, power, whole
from second.exact import at_most, fraction
from second.exponential import exponential_of_minus
from second.level import exponential_at, logarithm_at, series_at
from second.logarithm import doublings, ln_2, logarithm_of_ratio
from second.sheet import ZERO, exact, exact_difference, exact_product, exact_quotient, exact_sum
from second.tests import samples
from second.tests.samples import at_each_width, holds


def test_operators_follow_the_rule():
    random = randoms.Random(11)
    for bits in (8, 32, 53):
        for _ in range(1500):
            a, b = samples.bracket(random, bits, 30), samples.bracket(random, bits, 30)
            divisor = samples.bracket(random, bits, 30, positive=True)
            assert a + b == over_ends(exact_sum, a, b)
            assert a - b == over_ends(exact_difference, a, b)
            assert a * b == over_ends(exact_product, a, b)
            assert a / divisor == over_ends(exact_quotient, a, divisor)


def test_the_rule_holds_what_it_should():
    """Results of the ends and of the middles lie in the bracket, and no end can move inward."""
    random = randoms.Random(12)
    for _ in range(1000):
        a, b = samples.bracket(random, 6, 4), samples.bracket(random, 6, 4)
        xs, ys = [[fraction(exact(s)) for s in c[1:]] for c in (a, b)]
        products = [x * y for x in xs for y in ys]
        assert a * b == Bracket(6, *(given(6, p.numerator, p.denominator)[i] for i, p in
                                     ((1, min(products)), (2, max(products)))))
        x, y = sum(xs) / 2, sum(ys) / 2
        assert holds(a * b, x * y) and holds(a - b, x - y) and holds(a + b, x + y)


@at_each_width
def test_power_by_recursion(width):
    random = randoms.Random(13)
    for _ in range(200):
        b = samples.bracket(random, width, 30)
        result = whole(width, 1)
        for n in range(8):
            assert power(b, n) == result
            result = result * b


def test_whole_numbers_are_exact():
    for n in list(range(0, 257)) + [322] + [2 ** k for k in range(22)]:
        for bits in (8, 32, 53):
            b = whole(bits, n)
            assert b.lower == b.upper and fraction(exact(b.lower)) == n


@at_each_width
def test_P9(width):
    one = (1 << (width - 1), 1 - width)
    assert exponential_of_minus(whole(width, 0)) == Bracket(width, one, one)


@at_each_width
def test_P10(width):
    assert logarithm_of_ratio(width, (322, 1, 0), (322, 1, 0)) == Bracket(width, ZERO, ZERO)


def test_exponential_covers_its_levels():
    for bits in (32, 53):
        thinnest = Fraction(1, 1024 * 322)
        for x in map(Fraction, (0, 1, thinnest ** 3, thinnest ** 15 / 100, Fraction(5, 7), 4, 64, 127, 128)):
            b = exponential_of_minus(given(bits, x.numerator, x.denominator))
            assert b.lower[0] > 0
            for N in (256, 257, 300):
                assert holds(b, exponential_at(N, x))


def test_logarithm_covers_its_levels():
    one = f64.word(1.0)
    pairs = [(one, one), (samples.above(one), one), (f64.word(1288.0), f64.word(2.0 ** -10)),
             (f64.word(644.0), f64.word(322.0)), (samples.under(f64.word(644.0)), f64.word(322.0)),
             (samples.above(f64.word(322.0)), samples.under(f64.word(322.0))), (f64.word(958.25), f64.word(0.59765625)),
             (f64.word(2576.0), f64.word(2.0 ** -10))]
    for bits in (32, 53):
        for liquid, vapour in pairs:
            x, y = f64.exact(liquid), f64.exact(vapour)
            b = logarithm_of_ratio(bits, x, y)
            for N in (256, 300):
                assert holds(b, logarithm_at(N, fraction(x), fraction(y)))
        assert holds(ln_2(bits), series_at(256, Fraction(1, 3)))


def test_doublings_are_decided_on_the_exact_inputs():
    low = f64.word(322.0)
    assert doublings(f64.exact(f64.word(644.0)), f64.exact(low)) == 1
    assert doublings(f64.exact(samples.under(f64.word(644.0))), f64.exact(low)) == 0
    assert doublings(f64.exact(f64.word(1288.0)), f64.exact(f64.word(2.0 ** -10))) == 20
    assert doublings(f64.exact(f64.word(2576.0)), f64.exact(f64.word(2.0 ** -10))) == 21


def test_ratio_next_to_a_power_of_two_keeps_its_negative_end():
    """Where the bracket of r dips below 1, z reaches below zero and so does z times z: the four products say so.

    Between liquid and vapour lies 322, a sheet number, so in a pair this takes a k above zero.
    """
    vapour = f64.exact(samples.under(f64.word(322.0)))
    twice = vapour[:2] + (vapour[2] + 1,)
    r = given(32, *twice) / (given(32, *vapour) * 2)
    z = (r - 1) / (r + 1)
    assert z.lower[0] < 0 < z.upper[0] and (z * z).lower[0] < 0
    for liquid, k in ((vapour, 0), (twice, 1)):
        assert doublings(liquid, vapour) == k
        b = logarithm_of_ratio(32, liquid, vapour) - k * ln_2(32)
        assert b.lower[0] < 0 < b.upper[0] and not at_most(exact(b.upper), (1, 1, -34))


def test_no_ratio_dips_below_one_at_53_bits():
    """Both densities are sheet numbers there, so the exact quotient is rounded, and 1 is a sheet number."""
    random = randoms.Random(14)
    words = [samples.density(random) for _ in range(200)]
    for a, b in zip(words, words[1:] + [samples.under(f64.word(322.0))]):
        liquid, vapour = f64.exact(max(a, b)), f64.exact(min(a, b))
        r = given(53, *liquid) / (given(53, *vapour) * whole(53, 2 ** doublings(liquid, vapour)))
        assert at_most((1, 1, 0), exact(r.lower))
