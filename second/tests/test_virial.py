"""The vapour card: cases worked by hand, the rules in plain Fractions, the exact values between the ends, both sides of
each limit, every number, and B and C as limits of the equation itself (02 i).

Assumes nothing.
"""

import random as randoms
import struct
from fractions import Fraction

from second import f64, level
from second.exact import fraction
from second.kind import MOST, NINE
from second.panel import chosen
from second.sheet import exact
from second.term import packed, table_of, term38, terms_of
from second.tests import samples
from second.tests.plain import Plain
from second.tests.samples import INFINITY, NAN, NEGATIVE, WRONG_WIDTHS, above, at_each_width, table4, table5, under
from second.tests.test_verdicts import EASY, ROW_38
from second.verdict import WIDTHS, Answer, state_sheet
from second.virial import card, exact_card, vapour_card

W = f64.word
T, RHO = W(512.0), W(1.0)  # with these only R and the last product are rounded, where B and C are not
ONE = 10 ** 16  # a magnitude of this much is the coefficient 1
SQUARE = 322 ** 2 * ONE // 2 ** 15  # the coefficient 322 times 322 over 2^15, exactly
B, C = Fraction(161, 2 ** 14), Fraction(1, 2 ** 14)  # that over 322, and twice that over 322 times 322
# R by its last places: the lower end is the first times the second.
R = {32: (3871494006, Fraction(1, 2 ** 23)), 53: (8119111398456085, Fraction(1, 2 ** 44))}
# 1/322 in the same way.
REST = {32: (3414632384, Fraction(1, 2 ** 40)), 53: (7161003134204018, Fraction(1, 2 ** 61))}


def table(*terms):
    """Of terms c, d, t, sign and magnitude."""
    return table_of(NINE, [term38(*term) for term in terms])


def value(word):
    return fraction(f64.exact(word))


def values(width, lent, T=T, rho=RHO):
    """The six ends of an accepted card as Fractions, in pairs."""
    answer = vapour_card(width, lent, T, rho)
    assert (answer.number, answer.place, len(answer.ends)) == (0, 0, 6)
    ends = [value(end) for end in answer.ends]
    return [tuple(ends[i:i + 2]) for i in (0, 2, 4)]


def floats(answer):
    return [struct.unpack(">d", struct.pack(">Q", end))[0] for end in answer.ends]


# by hand

def test_the_numbers_of_the_cases():
    assert SQUARE * 2 ** 15 == 322 ** 2 * ONE and SQUARE <= 10 ** 17
    for width in WIDTHS:
        for (m, unit), x in ((R[width], Fraction("461.51805")), (REST[width], Fraction(1, 322))):
            assert m.bit_length() == width and m * unit < x < (m + 1) * unit


def checked(width, lent, b, c):
    """B and C have just these values for both ends, and the pressure's ends are those of R, 512 and 1 + B + C."""
    plain, (m, unit) = Plain(width), R[width]
    pressure = tuple(n * unit * 512 * (1 + b + c) for n in (m, m + 1))
    assert values(width, lent) == [(b, b), (c, c), (plain.down(pressure[0]), plain.up(pressure[1]))]


@at_each_width
def test_one_term(width):
    """Which of the sums a term enters, by its d and c."""
    for sign in (0, 1):
        b, c = (-1) ** sign * B, (-1) ** sign * C
        for power in range(4):
            checked(width, table((power, 1, 0, sign, SQUARE)), b, -c if power == 1 else 0)
            checked(width, table((power, 2, 0, sign, SQUARE)), 0, c)
            for d in range(3, 16):
                checked(width, table((power, d, 0, sign, SQUARE)), 0, 0)


@at_each_width
def test_some_terms(width):
    """Of d = 1 only c = 1 takes from C, and it takes what d = 2 brings; the rest does not count."""
    linear, second, third = ((c, 1, 0, 0, SQUARE) for c in (1, 2, 3))
    square, other = (0, 2, 0, 0, SQUARE), (1, 3, 0, 1, SQUARE)
    checked(width, table(linear, square), B, 0)
    checked(width, table(second, square), B, C)
    checked(width, table(third, other, square), B, C)
    checked(width, table(square, linear, square), B, C)
    checked(width, table(second, third, other, linear), 3 * B, -C)
    checked(width, table(square, (3, 2, 0, 1, SQUARE)), 0, 0)
    checked(width, table(linear, (0, 1, 0, 1, SQUARE)), 0, -C)


@at_each_width
def test_zero_ends_are_plus_zero(width):
    for terms in ([(0, 3, 24, 1, ONE)], [(1, 1, 0, 1, SQUARE), (1, 1, 0, 0, SQUARE)],
                  [(0, 2, 0, 1, SQUARE), (3, 2, 0, 0, SQUARE)]):
        answer = vapour_card(width, table(*terms), T, RHO)
        assert answer.number == 0 and answer.ends[:4] == (0,) * 4 and 0 < answer.ends[4] < answer.ends[5] < NEGATIVE


@at_each_width
def test_no_term_counts(width):
    """Then the pressure is rho R T: three sheet numbers' product, the gas without virial coefficients."""
    plain, random = Plain(width), randoms.Random(81)
    for _ in range(20):
        t, rho = W(random.uniform(273, 1123)), W(random.uniform(0.001, 55))
        ideal = plain.times(plain.times(plain.given(value(rho)), plain.R), plain.given(value(t)))
        lent = table_of(NINE, [samples.term(random)._replace(d=random.randint(3, 15)) for _ in range(5)])
        assert values(width, lent, t, rho) == [(0, 0), (0, 0), ideal]


@at_each_width
def test_a_coefficient_of_one(width):
    """B is 1/322, or -1/322: down and up of it."""
    m, unit = REST[width]
    assert values(width, table((0, 1, 0, 0, ONE)))[0] == (m * unit, (m + 1) * unit)
    assert values(width, table((2, 1, 0, 1, ONE)))[0] == (-(m + 1) * unit, -m * unit)


@at_each_width
def test_powers_of_tau(width):
    """tau is 647.14/512, and tau^2 is tau times tau, since 1 times tau is tau."""
    plain = Plain(width)
    tau = plain.over(plain.given(Fraction("647.14")), plain.given(512))
    assert tau[0] < Fraction("647.14") / 512 < tau[1]
    for t, power in ((0, plain.given(1)), (1, tau), (2, (plain.down(tau[0] ** 2), plain.up(tau[1] ** 2)))):
        expected = plain.over(plain.times(plain.given(Fraction(SQUARE, ONE)), power), plain.given(322))
        assert values(width, table((0, 1, t, 0, SQUARE)))[0] == expected


@at_each_width
def test_table_order(width):
    """8, then twice the smallest coefficient: each moves the upper end by one.  Summed from the last term they would
    move it by one together."""
    terms = [(0, 1, 0, 0, 8 * ONE), (0, 1, 0, 0, 1), (0, 1, 0, 0, 1)]
    place = Fraction(1, 2 ** (width - 4))  # the last one of 8
    plain = Plain(width)
    for some, steps in ((terms, 2), (terms[::-1], 1), (terms[1:] + terms[:1], 1), (terms[1:2] + terms[:2], 2)):
        expected = plain.over((Fraction(8), 8 + steps * place), plain.given(322))
        assert values(width, table(*some))[0] == expected, (some, steps)
        squares = table(*((c, 2, *rest) for c, _, *rest in some))
        critical = plain.given(322 ** 2)
        assert values(width, squares)[1] == plain.over((Fraction(16), 16 + 2 * steps * place), critical)
        damped = table(*((1, d, *rest) for _, d, *rest in some))
        assert values(width, damped)[1] == plain.over((-16 - 2 * steps * place, Fraction(-16)), critical)
    assert values(width, table(*terms)) != values(width, table(*terms[::-1]))


@at_each_width
def test_the_other_terms_do_not_count(width):
    """A table answers as its terms with d of 1 and 2 alone."""
    random = randoms.Random(82)
    for _ in range(30):
        terms = [samples.term(random)._replace(d=random.choice([1, 2, 3, 15])) for _ in range(12)]
        terms[0] = terms[0]._replace(d=random.choice([1, 2]))
        few = [term for term in terms if term.d <= 2]
        t, rho = samples.between(random, 273, 1123), samples.between(random, 0.001, 55)
        assert vapour_card(width, table_of(NINE, terms), t, rho) == vapour_card(width, table_of(NINE, few), t, rho)


# the rules, and the exact values

def inputs(random):
    """Terms mostly of d 1 and 2, T and density: as bits, or as Fractions."""
    terms = [samples.term(random) for _ in range(random.choice([1, 2, 4, 12, MOST]))]
    terms = [term._replace(d=random.choice([1, 1, 2, 2, term.d])) for term in terms]
    t = random.choice([samples.between(random, 273, 1123), W(random.randint(273, 1123)), W(273.0), W(1123.0)])
    rho = random.choice([W(2.0 ** random.uniform(-10, 5.78)), W(random.randint(1, 55)), W(2.0 ** -10), W(55.0)])
    return terms, t, rho


@at_each_width
def test_the_rules_in_fractions(width):
    """Equal, not merely close."""
    random, plain = randoms.Random(83), Plain(width)
    for i in range(12):
        terms, t, rho = inputs(random)
        terms = terms_of(NINE, table5()) if i == 0 else terms[:12]
        assert values(width, table_of(NINE, terms), t, rho) == list(plain.card(terms, value(t), value(rho)))


def test_exact_values_lie_between_the_ends():
    random = randoms.Random(84)
    for i in range(300):
        terms, t, rho = inputs(random)
        terms = terms_of(NINE, table5()) if i % 6 == 0 else terms
        found = exact_card(terms, value(t), value(rho))
        for width in WIDTHS:
            ends = values(width, table_of(NINE, terms), t, rho)
            assert all(low <= x <= high for (low, high), x in zip(ends, found))


def test_narrow_brackets():
    """At any count of bits, and ever closer."""
    terms, x = terms_of(NINE, table5()), (Fraction(400), Fraction(1))
    found, before = exact_card(terms, *x), [1, 1, 10 ** 6]
    for bits in (16, 32, 53, 100, 200):
        ends = [[fraction(exact(end)) for end in b[1:]] for b in card(bits, terms, (400, 1, 0), (1, 1, 0))]
        assert all(low <= y <= high for (low, high), y in zip(ends, found))
        wide = [high - low for low, high in ends]
        assert all(now < then / 1000 for now, then in zip(wide, before)) or bits == 16
        before = wide


def test_table5_at_400_K():
    """B of steam at 400 K is about -0.0193 m3/kg, and C about -0.00057 m6/kg2; at 1 kg/m3 the pressure is 2 % under
    that of the gas without them."""
    for width, most in ((32, 2e-8), (53, 1e-14)):
        b, above_b, c, above_c, p, above_p = floats(vapour_card(width, table5(), W(400.0), W(1.0)))
        assert -0.01928 < b < above_b < -0.01927 and -0.000569 < c < above_c < -0.000568
        assert above_b - b < most * 0.0193 and above_c - c < 10 * most * 0.00057 and above_p - p < most * p
        assert 180943.536 < p < above_p < 180943.537
    found = exact_card(terms_of(NINE, table5()), Fraction(400), Fraction(1))
    assert ["%.15f" % float(x) for x in found[:2]] == ["-0.019277634402597", "-0.000568195511331"]


def test_table5_beside_the_state_sheet():
    """What the polynomial leaves out begins with the fourth power of the density: 23.3 Pa at 400 K and 1 kg/m3."""
    for rho in (1.0, 0.5, 0.25, 0.125):
        polynomial = floats(vapour_card(53, table5(), W(400.0), W(rho)))[4]
        full = floats(state_sheet(53, 38, table5(), W(400.0), W(rho)))[0]
        assert 23.3 < (polynomial - full) / rho ** 4 < 23.4


def test_limits_of_the_equation():
    """As rho falls, (p/(rho R T) - 1)/rho comes near B, and what is left of it over rho near C, each to within rho
    times all that the terms can bring.  The series of 1/(1 + x + ...) has its right first terms from level 1 on."""
    random = randoms.Random(85)
    tables = [tuple(terms_of(NINE, table5()))]
    for c in range(4):
        powers = (1, 1), (c, 2), (2, 1), (3, 1), (0, 3), (0, 1)  # c and d
        tables.append(tuple(term38(*power, random.randint(0, 24), random.randrange(2), samples.coefficient(random))
                            for power in powers))
    for terms in tables:
        t = Fraction(random.randint(273, 1123))
        b, c, _ = exact_card(terms, t, Fraction(1))
        tau = Fraction("647.14") / t
        size = sum(16 * Fraction(term.magnitude, ONE) * tau ** term.t for term in terms)
        for N in (2, 256):
            for power in (40, 80, 120):
                rho = Fraction(1, 2 ** power)
                slope = (level.pressure_at(N, terms, t, rho) / (rho * level.GAS_CONSTANT * t) - 1) / rho
                assert abs(slope - b) <= rho * size / 322 ** 2
                assert abs((slope - b) / rho - c) <= rho * size / 322 ** 3
        assert size / 2 ** 120 < min(abs(b), abs(c)) / 10 ** 6


# the numbers

def number(width, lent=EASY, T=W(300.0), rho=W(1.0)):
    answer = vapour_card(width, lent, T, rho)
    assert len(answer.ends) == 6 and (answer.number == 0 or answer.ends == (0,) * 6)
    return answer.number


@at_each_width
def test_temperature_line(width):
    for t in (W(273.0), above(W(273.0)), W(647.14), under(W(1123.0)), W(1123.0)):
        assert number(width, T=t) == 0
    for t in (under(W(273.0)), above(W(1123.0)), W(252.0), W(1273.0), NAN, INFINITY, INFINITY | NEGATIVE, 0, NEGATIVE,
              W(-300.0), 1):
        assert number(width, T=t) == 3 and number(width, T=t, rho=NAN) == 3


@at_each_width
def test_density_line(width):
    for rho in (W(2.0 ** -10), above(W(2.0 ** -10)), W(1.0), under(W(55.0)), W(55.0)):
        assert number(width, rho=rho) == 0
    for rho in (under(W(2.0 ** -10)), above(W(55.0)), W(322.0), W(1288.0), NAN, NAN | NEGATIVE, INFINITY,
                INFINITY | NEGATIVE, 0, NEGATIVE, W(-1.0), 1):
        assert number(width, rho=rho) == 4


@at_each_width
def test_table_line(width):
    full = EASY * MOST
    assert number(width, full) == number(width, full[:9]) == 0
    for lent in (b"", full[:8], full[:10], full[:575], full + b"\0", full + EASY, table4()):
        assert number(width, lent) == number(width, lent, T=NAN) == 1
    least = term38(0, 1, 0, 0, 1)
    for good in ({"t": 24}, {"magnitude": 10 ** 17}, {"d": 15}, {"c": 3, "factor": 100}):
        assert number(width, packed(NINE, least._replace(**good))) == 0
    for bad in ({"t": 25}, {"magnitude": 10 ** 17 + 1}, {"magnitude": 0}, {"d": 0}):
        for before in (0, 1, MOST - 1):
            lent = EASY * before + packed(NINE, least._replace(**bad))
            lent += bytes(9) if before == 1 else b""
            for t in (W(300.0), NAN):
                assert vapour_card(width, lent, t, NAN) == Answer(2, before + 1, (0,) * 6)


@at_each_width
def test_order_of_the_numbers(width):
    """Everything bad, then mended one by one."""
    asked = dict(width=31, table=b"", T=NAN, rho=NAN)
    for mend, expected in ((dict(), 19), (dict(width=width), 1), (dict(table=EASY + bytes(9)), 2),
                           (dict(table=EASY), 3), (dict(T=W(300.0)), 4), (dict(rho=W(1.0)), 0)):
        asked.update(mend)
        answer = vapour_card(**asked)
        assert (answer.number, answer.place) == (expected, 2 if expected == 2 else 0)
        assert (answer.ends == (0,) * 6) == (expected != 0)


def test_wrong_widths():
    for width in WRONG_WIDTHS + tuple(n for n in range(100) if n not in WIDTHS):
        for lent, x in ((b"", NAN), (bytes(9), NAN), (EASY, W(300.0)), (ROW_38, 0)):
            assert vapour_card(width, lent, x, x) == Answer(19, 0, (0,) * 6)


@at_each_width
def test_there_is_no_ceiling(width):
    """Neither above, where the state sheet gives 8, nor below zero."""
    for sign in (0, 1):
        lent = table((0, 1, 24, sign, 10 ** 17)) * MOST
        b, _, p = values(width, lent, W(273.0), W(55.0))
        assert all((-1) ** sign * x > 10 ** 9 for x in b) and all((-1) ** sign * x > 10 ** 17 for x in p)
        assert state_sheet(width, 38, lent, W(273.0), W(55.0)).number == (0 if sign else 8)


@at_each_width
def test_choices(width):
    answer = vapour_card(width, table5(), W(400.0), W(1.0))
    assert [chosen(answer, choice) for choice in range(8)] == [0, 0, *answer.ends] and all(answer.ends)
    assert all(chosen(answer, choice) == 0 for choice in (8, 9, 38, 2 ** 32 + 2, 2 ** 64 - 1))
    broken = vapour_card(width, EASY * 3 + bytes(9), W(400.0), W(1.0))
    assert [chosen(broken, choice) for choice in range(10)] == [2, 4] + [0] * 8
