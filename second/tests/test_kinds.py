"""The kinds of table: 29, both sides of each limit of the longer record, what stays the same, the factor, the
exponential that is cut off, and the words of the bench program (02 h)."""

import random as randoms
import struct
from fractions import Fraction

from second import equation, f64
from second.bench import NO_KIND, kind_of, lines, width_of
from second.bracket import Bracket
from second.convert import lengthen
from second.exact import fraction
from second.kind import KINDS, NINE, TWELVE
from second.sheet import ZERO, exact
from second.term import Term, packed
from second.tests import samples
from second.tests.samples import (INFINITY, NAN, NEGATIVE, WRONG_KINDS, WRONG_WIDTHS, above, at_each_kind,
                                  at_each_width, table4, table5, under)
from second.tests.test_verdicts import (AT_ZERO, BELOW_ZERO, CEILINGS, EASY, NONE, Ceiling, both_sides_of_a_ceiling,
                                        second_term_broken)
from second.verdict import WIDTHS, Answer, density_check, pair_check, state_sheet

W = f64.word
WIDE = W(1e6)
ANSWERED = (0, 9, 10, 11)  # the equation was worked out
EASIER = lengthen(EASY, 12).output  # small and positive
RHO = W(1.0)


HIGH = 25 * 10 ** 9  # the ceiling of the longer record
CEILINGS_58 = {32: Ceiling(W(301.0), W(2576.0), 86077087558805942, HIGH + 16, TWELVE),
               53: Ceiling(W(301.0), W(2576.0), 86077087589515581, HIGH + Fraction(1, 2 ** 18), TWELVE)}


def numbers(width, kind, table, T, rho, target=0, tolerance=WIDE):
    return (state_sheet(width, kind, table, T, rho).number,
            density_check(width, kind, table, T, rho, target, tolerance).number)


def pair_number(width, kind, table=None, T=W(300.0), liquid=W(323.0), vapour=W(321.0), p=WIDE, g=WIDE):
    return pair_check(width, kind, EASIER if table is None else table, T, liquid, vapour, p, g).number


def test_wrong_kinds():
    """29 comes right after 19, with zeros, whatever else is asked."""
    for kind in WRONG_KINDS + tuple(n for n in range(200) if n not in KINDS):
        for width in WIDTHS + WRONG_WIDTHS:
            number = 29 if width in WIDTHS else 19
            for table, x in ((b"", NAN), (bytes(9), NAN), (bytes(12), NAN), (EASY, W(300.0)), (EASIER, W(300.0))):
                assert state_sheet(width, kind, table, x, x) == Answer(number, 0, (0,) * 4)
                assert density_check(width, kind, table, x, x, x, x) == Answer(number, 0, (0,) * 2)
                assert pair_check(width, kind, table, x, x, x, x, x) == Answer(number, 0, (0,) * 2)


def test_a_table_of_the_other_kind():
    """Its length, or its terms, give it away."""
    assert numbers(32, 58, EASY, W(300.0), RHO) == numbers(32, 38, EASIER, W(300.0), RHO) == (1, 1)
    assert numbers(32, 58, table5(), W(300.0), RHO) == numbers(32, 38, table4(), W(300.0), RHO) == (1, 1)
    assert state_sheet(32, 58, EASY * 4, W(300.0), RHO).number == state_sheet(32, 38, EASIER * 3, W(300.0), RHO).number


@at_each_width
def test_lengthened_tables_answer_the_same(width):
    """Where both kinds' limits allow an input: the factor 100 is exactly 1."""
    random = randoms.Random(61)
    for _ in range(25):
        make = random.choice([samples.term, samples.gentle_term])
        table = samples.sound_table(random, random.choice([1, 3, 8]), make)
        longer = lengthen(table, 768).output
        T, rho = samples.temperature(random), samples.density(random)
        old, new = state_sheet(width, 38, table, T, rho), state_sheet(width, 58, longer, T, rho)
        assert old == new or (old.number, new.number) in ((8, 0), (8, 8))
    longer = lengthen(table5(), 768).output
    for T, liquid, vapour in ((W(373.15), W(958.36), W(0.5975)), (W(640.0), W(483.0), W(177.0)), BELOW_ZERO):
        for tolerance in (0, WIDE):
            assert (pair_check(width, 38, table5(), T, liquid, vapour, tolerance, tolerance)
                    == pair_check(width, 58, longer, T, liquid, vapour, tolerance, tolerance))
    for table in AT_ZERO[width] + [NONE, EASY]:
        longer = lengthen(table, 12).output
        assert (density_check(width, 38, table, W(300.0), W(322.0), 1, 0)
                == density_check(width, 58, longer, W(300.0), W(322.0), 1, 0))


@at_each_width
def test_temperature_line(width):
    for T in (W(252.0), W(1273.0), W(273.0)):
        assert numbers(width, 58, EASIER, T, RHO) == (0, 0)
    for T in (under(W(252.0)), above(W(1273.0)), NAN, INFINITY, INFINITY | NEGATIVE, NEGATIVE, W(-300.0)):
        assert numbers(width, 58, EASIER, T, RHO) == (3, 3) and pair_number(width, 58, T=T) == 3
    for T in (W(252.0), W(272.0), under(W(273.0))):
        assert numbers(width, 58, EASIER, T, RHO) == (0, 0) and numbers(width, 38, EASY, T, RHO) == (3, 3)


@at_each_width
def test_the_pair_check_still_starts_at_the_triple_point(width):
    for T in (W(273.16), W(1273.0)):
        assert pair_number(width, 58, T=T) in ANSWERED
    for T in (W(252.0), W(273.0), W(273.15), under(W(273.16)), above(W(1273.0))):
        assert pair_number(width, 58, T=T) == 3


@at_each_width
def test_density_line(width):
    T = W(300.0)
    for rho in (W(2.0 ** -10), W(2576.0), above(W(1288.0))):
        assert state_sheet(width, 58, EASIER, T, rho).number == 0 and numbers(width, 58, EASIER, T, rho)[1] in (0, 9)
    for rho in (under(W(2.0 ** -10)), above(W(2576.0)), NAN, INFINITY, INFINITY | NEGATIVE, 0, NEGATIVE):
        assert numbers(width, 58, EASIER, T, rho) == (4, 4)
        assert pair_number(width, 58, liquid=rho) == 4 and pair_number(width, 58, vapour=rho) == 4
    assert pair_number(width, 58, liquid=W(2576.0)) in ANSWERED
    assert pair_number(width, 58, vapour=W(2.0 ** -10)) in ANSWERED
    assert pair_number(width, 38, EASY, liquid=above(W(1288.0))) == 4


@at_each_width
def test_table_line(width):
    full = EASIER * 64
    assert numbers(width, 58, full, W(300.0), RHO) == (0, 0) and pair_number(width, 58, full) in ANSWERED
    for table in (b"", full[:11], full[:13], full[:9], full + EASIER, full + b"\0", full[:576 + 9]):
        assert numbers(width, 58, table, W(300.0), RHO) == (1, 1) and pair_number(width, 58, table) == 1
    assert numbers(width, 58, full[:576], W(300.0), RHO) == (0, 0)
    assert state_sheet(width, 58, b"", NAN, NAN).number == 1 and pair_number(width, 58, b"", NAN) == 1


@at_each_width
def test_term_line(width):
    state = (W(1273.0), W(2.0 ** -10))
    sound = Term(1, 100, 1, 0, 0, 1)
    for good, bad in (({"t": 63}, {"d": 0}), ({"d": 31}, {"magnitude": 0}), ({"c": 15}, {"factor": 0}),
                      ({"factor": 1023}, {"c": 0}), ({"factor": 1}, {"spare": 1}), ({"negative": 1}, {"spare": 512}),
                      ({"magnitude": 10 ** 17}, {"magnitude": 10 ** 17 + 1}), ({"c": 0, "factor": 0}, {"spare": 1023})):
        passing, failing = (EASIER + packed(TWELVE, sound._replace(**fields)) for fields in (good, bad))
        assert numbers(width, 58, passing, *state) == (0, 0), good
        second_term_broken(width, 58, failing, *state)


@at_each_width
def test_ceiling_line(width):
    both_sides_of_a_ceiling(width, CEILINGS_58[width], HIGH)
    # the other kind's ceiling is none here
    old = CEILINGS[width]
    for table in old.tables():
        assert state_sheet(width, 58, lengthen(table, 12).output, old.T, old.rho).number == 0


@at_each_width
def test_target_line(width):
    for target in (0, NEGATIVE, 1, W(1e9), above(W(1e9)), W(25e9)):
        assert numbers(width, 58, EASIER, W(300.0), RHO, target)[1] in (0, 9)
    for target in (NEGATIVE | 1, above(W(25e9)), NAN, INFINITY, W(-1.0)):
        assert numbers(width, 58, EASIER, W(300.0), RHO, target)[1] == 5


@at_each_kind
def test_tolerance_and_sides(width, kind):
    """The same for both kinds."""
    table = EASY if kind == NINE else EASIER
    for tolerance in (0, NEGATIVE, 1, WIDE):
        assert density_check(width, kind.number, table, W(300.0), RHO, 0, tolerance).number in (0, 9)
        assert pair_number(width, kind.number, table, p=tolerance) in ANSWERED
    for tolerance in (NEGATIVE | 1, above(WIDE), NAN, INFINITY):
        assert density_check(width, kind.number, table, W(300.0), RHO, 0, tolerance).number == 6
        assert pair_number(width, kind.number, table, p=tolerance) == 6
        assert pair_number(width, kind.number, table, g=tolerance) == 6
    assert pair_number(width, kind.number, table, liquid=W(322.0)) == 7
    assert pair_number(width, kind.number, table, vapour=W(322.0)) == 7
    assert pair_number(width, kind.number, table, liquid=above(W(322.0)), vapour=under(W(322.0))) in ANSWERED


@at_each_width
def test_order_of_the_numbers(width):
    """Everything is bad at first; mended one by one, the numbers come in order."""
    T, rho, over = CEILINGS_58[width].T, CEILINGS_58[width].rho, CEILINGS_58[width].tables()[1]
    broken, pulled = bytes(12), lengthen(AT_ZERO[width][0], 12).output
    bad = dict(width=31, kind=39, table=b"", T=NAN, liquid=NAN, vapour=NAN, pressure_tolerance=NAN, gibbs_tolerance=NAN)
    for mend, number in ((dict(), 19), (dict(width=width), 29), (dict(kind=58), 1), (dict(table=broken), 2),
                         (dict(table=over), 3), (dict(T=T), 4), (dict(liquid=rho), 4), (dict(vapour=W(322.0)), 6),
                         (dict(pressure_tolerance=0), 6), (dict(gibbs_tolerance=0), 7), (dict(vapour=W(321.0)), 8),
                         (dict(table=pulled), 21), (dict(table=EASIER), 9), (dict(pressure_tolerance=WIDE), 9),
                         (dict(liquid=W(322.125)), 10)):
        bad.update(mend)
        assert pair_check(**bad).number == number, mend


@at_each_width
def test_factor_one_changes_nothing(width):
    one = equation.exponent(Term(1, 100, 1, 0, 0, 1), Bracket(width, *[(1 << (width - 1), 1 - width)] * 2))
    assert fraction(exact(one.lower)) == fraction(exact(one.upper)) == 1
    random = randoms.Random(62)
    for _ in range(50):
        delta = samples.narrow(random, width)
        for c in range(1, 16):
            assert equation.exponent(Term(c, 100, 1, 0, 0, 1), delta) == delta ** c


@at_each_width
def test_factor_and_weights(width):
    """At delta = 1 g is the factor itself: w is d - c g, and the last part of S2 is c^2 g."""
    one = Bracket(width, *[(1 << (width - 1), 1 - width)] * 2)
    for c, factor, d in ((6, 200, 4), (2, 25, 1), (15, 50, 31), (1, 1000, 3)):
        term, g = Term(c, factor, d, 0, 0, 1), Fraction(factor, 100)
        found = equation.exponent(term, one)
        w = equation.weight(term, found)
        second = equation.second_weight(term, found, w)
        expected = d - c * g
        for b, value in ((found, g), (w, expected), (second, expected * (expected - 1) - c * c * g)):
            assert fraction(exact(b.lower)) == fraction(exact(b.upper)) == value


@at_each_width
def test_the_exponential_is_cut_off_near_the_greatest_density(width):
    """delta is 8 there, and 2 delta^6 far above 128; at 644 kg/m3 it is 128 exactly, and not above."""
    term = Term(6, 200, 1, 0, 0, 10 ** 16)
    for rho, lower in ((2576.0, True), (above(W(644.0)), True), (644.0, False), (600.0, False)):
        word = W(rho) if isinstance(rho, float) else rho
        delta = equation.given(width, *f64.exact(word)) / 322
        cut = fraction(exact(equation.exponent(term, delta).upper)) > 128
        assert (equation.exponential(equation.exponent(term, delta)).lower == ZERO) == cut == lower
    for rho in (2576.0, 1000.0, 645.0):
        answer = state_sheet(width, 58, table4(), W(400.0), W(rho))
        assert answer.number in (0, 8)


def test_words():
    """The second word names the kind: 38 where there is none."""
    assert kind_of([]) == kind_of(["53"]) == kind_of(["53", "38"]) == kind_of(["x", "38", "58"]) == 38
    assert kind_of(["32", "58"]) == 58
    for word in ("", "0", "37", "038", "+58", "-38", "58 ", " 58", "5 8", "58.0", "5", "588", "x", "4294967334",
                 "\uff15\uff18", "32"):
        assert kind_of(["32", word]) == kind_of(["x", word, "58"]) == NO_KIND not in KINDS


def test_the_program_answers_each_proposal():
    """A first word that names no width gives 19, else a second that names no kind 29; a cut proposal is still 12."""
    proposals = struct.pack(">10d", 272, 1000, 1, 0, 0, 300, 322, 1, 0, 0) + b"abc"
    for words, numbers in ((["32", "58"], [3, 7, 12]), (["53", "58"], [3, 7, 12]), (["32", "x"], [29, 29, 12]),
                           (["x", "58"], [19, 19, 12]), (["x", "y"], [19, 19, 12]), (["53", ""], [29, 29, 12])):
        answered = list(lines(width_of(words), kind_of(words), table4(), proposals))
        assert answered == ["%d %d 0 %s %s" % (i, number, "0" * 16, "0" * 16) for i, number in enumerate(numbers, 1)]
