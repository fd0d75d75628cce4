"""The answers for nine-byte tables: 01's example output, every row of its "Both sides of the line", 02 b, d and f,
traps, and the panel's choices."""

import struct
from fractions import Fraction
from typing import NamedTuple

from second import f64
from second.bench import NO_WIDTH, line, lines, width_of
from second.equation import gibbs_gap_of, phase, pressure
from second.exact import fraction
from second.kind import NINE, Kind
from second.logarithm import logarithm_of_ratio
from second.panel import chosen
from second.sheet import exact
from second.term import packed, term38, terms_of
from second.tests.samples import (INFINITY, NAN, NEGATIVE, WRONG_WIDTHS, above, at_each_width, odd_table, table5,
                                  under)
from second.verdict import WIDTHS, Answer, balance, density_check, pair_check, state_sheet, with_ends

W = f64.word
ROW_38 = bytes.fromhex("D5F0006E9B73B18500")
EASY = packed(NINE, term38(0, 1, 0, 0, 10 ** 13))  # small and positive: every state has a positive stiffness
NONE = packed(NINE, term38(0, 1, 0, 1, 10 ** 16))  # coefficient -1: no pressure at all at density 322
WIDE = W(1e6)
ANSWERED = (0, 9, 10, 11)  # the equation was worked out


class Ceiling(NamedTuple):
    """A kind's ceiling, met exactly at one width: a term c 0, d 1, t 0 at this T and density.  With the magnitude the
    upper end of pressure is the ceiling; with the next magnitude it is the next sheet number."""
    T: int
    rho: int
    magnitude: int
    next: Fraction
    kind: Kind = NINE

    def tables(self):
        """At the ceiling, and over it."""
        return [packed(self.kind, term38(0, 1, 0, 0, magnitude)) for magnitude in (self.magnitude, self.magnitude + 1)]


CEILINGS = {32: Ceiling(W(1250.0), W(1288.0), 864538028836250, 10 ** 9 + Fraction(1, 4)),
            53: Ceiling(W(300.0), W(1288.0), 11518908461036898, 10 ** 9 + Fraction(1, 2 ** 23))}

# A vapour's pressure at zero: one term c 0, d 1, t 0 at density 161.  With the first coefficient, -2, both its ends are
# 0, with the second its lower end is, and with the third none.
AT_ZERO = {32: [packed(NINE, term38(0, 1, 0, 1, n)) for n in (2 * 10 ** 16, 19999999995343388, 19999999995343387)],
           53: [packed(NINE, term38(0, 1, 0, 1, n)) for n in (2 * 10 ** 16, 19999999999999998, 19999999999999997)]}
# T, liquid and vapour that the odd table has in balance below zero (data/propose.py).
BELOW_ZERO = W(394.15), W(476.11653), W(267.05587)


def numbers(width, table, T, rho, target=W(0.0), tolerance=WIDE):
    """The numbers of the state sheet and the density check."""
    return (state_sheet(width, 38, table, T, rho).number,
            density_check(width, 38, table, T, rho, target, tolerance).number)


def pair_number(width, table=EASY, T=W(300.0), liquid=W(323.0), vapour=W(321.0), p=WIDE, g=WIDE):
    return pair_check(width, 38, table, T, liquid, vapour, p, g).number


def test_example_output():
    proposals = struct.pack(">10d", 272, 1000, 1, 0, 0, 300, 322, 1, 0, 0) + b"abc"
    for width in WIDTHS:
        assert "".join(text + "\n" for text in lines(width, 38, ROW_38, proposals)) == (
            "1 3 0 0000000000000000 0000000000000000\n"
            "2 7 0 0000000000000000 0000000000000000\n"
            "3 12 0 0000000000000000 0000000000000000\n")
    for width in (NO_WIDTH,) + WRONG_WIDTHS:
        assert "".join(text + "\n" for text in lines(width, 38, ROW_38, proposals)) == (
            "1 19 0 0000000000000000 0000000000000000\n"
            "2 19 0 0000000000000000 0000000000000000\n"
            "3 12 0 0000000000000000 0000000000000000\n")


def test_width_by_word():
    """02 d: 32 where there is no word; the words behind the first are not looked at."""
    assert width_of([]) == width_of(["32"]) == width_of(["32", "53"]) == 32 and width_of(["53"]) == 53
    for word in ("", "0", "31", "032", "+32", "-32", "32 ", " 53", "3 2", "53.0", "5", "533", "x", "4294967328",
                 "18446744073709551648", "\uff13\uff12"):
        assert width_of([word]) == width_of([word, "32"]) == NO_WIDTH not in WIDTHS


def test_wrong_widths():
    """02 d: 19 comes first of all, with zeros, whatever else is asked."""
    broken = packed(NINE, term38(0, 0, 0, 0, 1))
    for width in WRONG_WIDTHS + tuple(n for n in range(200) if n not in WIDTHS):
        for table, x in ((b"", NAN), (broken, NAN), (EASY, NAN), (EASY, W(300.0)), (table5(), W(300.0))):
            assert state_sheet(width, 38, table, x, x) == Answer(19, 0, (0,) * 4)
            assert density_check(width, 38, table, x, x, x, x) == Answer(19, 0, (0,) * 2)
            assert pair_check(width, 38, table, x, x, x, x, x) == Answer(19, 0, (0,) * 2)
    assert [chosen(state_sheet(31, 38, b"", 0, 0), i) for i in range(7)] == [19] + [0] * 6


@at_each_width
def test_no_proposal_and_empty_table(width):
    assert list(lines(width, 38, ROW_38, b"")) == []
    assert list(lines(width, 38, b"", bytes(40))) == ["1 1 0 0000000000000000 0000000000000000"]
    assert list(lines(width, 38, b"", bytes(39))) == ["1 12 0 0000000000000000 0000000000000000"]


@at_each_width
def test_temperature_line(width):
    rho = W(1.0)
    for T in (W(273.16), W(1273.0)):
        assert numbers(width, EASY, T, rho) == (0, 0) and pair_number(width, T=T) in ANSWERED
    for T in (under(W(273.0)), above(W(1273.0)), NAN, INFINITY, INFINITY | NEGATIVE, NEGATIVE, W(-300.0), W(-273.16)):
        assert numbers(width, EASY, T, rho) == (3, 3) and pair_number(width, T=T) == 3


@at_each_width
def test_triple_point_line(width):
    """02 b: below the fraction 27316/100 the pair check alone refuses; no f64 is that fraction."""
    rho, least = W(1.0), W(273.16)
    assert fraction(f64.exact(under(least))) < Fraction(27316, 100) < fraction(f64.exact(least))
    for T in (W(273.0), W(273.05), W(273.15), under(least)):
        assert numbers(width, EASY, T, rho) == (0, 0) and pair_number(width, T=T) == 3
        assert pair_check(width, 38, table5(), T, NAN, NAN, NAN, NAN) == Answer(3, 0, (0, 0))


@at_each_width
def test_density_line(width):
    T = W(300.0)
    for rho in (W(2.0 ** -10), W(1288.0)):
        assert state_sheet(width, 38, EASY, T, rho).number == 0 and numbers(width, EASY, T, rho)[1] in (0, 9)
    for rho in (under(W(2.0 ** -10)), above(W(1288.0)), NAN, INFINITY, INFINITY | NEGATIVE, 0, NEGATIVE):
        assert numbers(width, EASY, T, rho) == (4, 4)
        assert pair_number(width, liquid=rho) == 4 and pair_number(width, vapour=rho) == 4
    assert pair_number(width, liquid=W(1288.0)) in ANSWERED and pair_number(width, vapour=W(2.0 ** -10)) in ANSWERED


@at_each_width
def test_table_line(width):
    full = EASY * 64
    assert numbers(width, full, W(300.0), W(1.0)) == (0, 0) and pair_number(width, full) in ANSWERED
    for table in (b"", full[:8], full[:10], full + EASY):
        assert numbers(width, table, W(300.0), W(1.0)) == (1, 1) and pair_number(width, table) == 1
    assert state_sheet(width, 38, b"", NAN, NAN).number == 1 and pair_number(width, b"", NAN) == 1
    assert density_check(width, 38, b"", NAN, NAN, NAN, NAN) == Answer(1, 0, (0, 0))


def second_term_broken(width, kind, table, T, rho):
    """2 with its place, from each of the three."""
    assert state_sheet(width, kind, table, T, rho) == Answer(2, 2, (0,) * 4)
    assert density_check(width, kind, table, T, rho, 0, 0) == Answer(2, 2, (0, 0))
    assert pair_check(width, kind, table, T, rho, NAN, NAN, NAN) == Answer(2, 2, (0, 0))


@at_each_width
def test_term_line(width):
    for field, good, bad in (("t", 24, 25), ("magnitude", 10 ** 17, 10 ** 17 + 1), ("d", 1, 0), ("magnitude", 1, 0)):
        term = term38(0, 1, 0, 0, 1)
        passing, failing = (EASY + packed(NINE, term._replace(**{field: x})) for x in (good, bad))
        state = (W(1273.0), W(2.0 ** -10))
        assert numbers(width, passing, *state) == (0, 0)
        second_term_broken(width, 38, failing, *state)


def both_sides_of_a_ceiling(width, ceiling, most):
    T, rho, _, next_end, kind = ceiling
    at, over = ceiling.tables()
    for table, end in ((at, most), (over, next_end)):
        reading = pressure(phase(width, terms_of(kind, table), f64.exact(T), f64.exact(rho)))
        assert fraction(exact(reading.upper)) == end
    name, top = kind.number, W(float(most))
    for answer in (state_sheet(width, name, at, T, rho), density_check(width, name, at, T, rho, top, WIDE)):
        assert answer.number == 0 and answer.ends[1] == top
    assert state_sheet(width, name, over, T, rho) == Answer(8, 0, (0,) * 4)
    assert density_check(width, name, over, T, rho, top, WIDE) == Answer(8, 0, (0, 0))
    assert [pair_check(width, name, table, T, rho, W(1.0), WIDE, WIDE).number for table in (at, over)] == [9, 8]


@at_each_width
def test_ceiling_line(width):
    both_sides_of_a_ceiling(width, CEILINGS[width], 10 ** 9)


@at_each_width
def test_target_line(width):
    T, rho = W(300.0), W(1.0)
    for target in (0, NEGATIVE, 1, W(1e9)):
        assert numbers(width, EASY, T, rho, target)[1] in (0, 9)
    for target in (NEGATIVE | 1, above(W(1e9)), NAN, INFINITY, W(-1.0)):
        assert numbers(width, EASY, T, rho, target)[1] == 5


@at_each_width
def test_tolerance_line(width):
    T, rho = W(300.0), W(1.0)
    for tolerance in (0, NEGATIVE, 1, W(1e6)):
        assert density_check(width, 38, EASY, T, rho, 0, tolerance).number in (0, 9)
        assert pair_number(width, p=tolerance) in ANSWERED and pair_number(width, g=tolerance) in ANSWERED
    for tolerance in (NEGATIVE | 1, W(-1.0), above(W(1e6)), NAN, INFINITY, INFINITY | NEGATIVE):
        assert density_check(width, 38, EASY, T, rho, 0, tolerance).number == 6
        assert pair_number(width, p=tolerance) == 6 and pair_number(width, g=tolerance) == 6


@at_each_width
def test_sides_line(width):
    assert pair_number(width, liquid=W(322.0)) == 7 and pair_number(width, vapour=W(322.0)) == 7
    assert pair_number(width, liquid=above(W(322.0))) in ANSWERED
    assert pair_number(width, vapour=under(W(322.0))) in ANSWERED
    assert pair_number(width, liquid=W(1.0), vapour=W(400.0)) == 7


@at_each_width
def test_order_of_the_numbers(width):
    """Everything is bad at first; mended one by one, the numbers come in order."""
    broken, pulled = packed(NINE, term38(0, 0, 0, 0, 1)), AT_ZERO[width][0]
    T, rho, over = CEILINGS[width].T, CEILINGS[width].rho, CEILINGS[width].tables()[1]
    bad = dict(width=31, kind=37, table=b"", T=NAN, rho=NAN, target=NAN, tolerance=NAN)
    for mend, number in ((dict(), 19), (dict(width=width), 29), (dict(kind=38), 1), (dict(table=broken), 2),
                         (dict(table=over), 3), (dict(T=T), 4), (dict(rho=rho), 5), (dict(target=W(0.0)), 6),
                         (dict(tolerance=0), 8), (dict(table=EASY), 9)):
        bad.update(mend)
        assert density_check(**bad).number == number
    bad = dict(width=31, kind=37, table=b"", T=NAN, liquid=NAN, vapour=NAN, pressure_tolerance=NAN,
               gibbs_tolerance=NAN)
    for mend, number in ((dict(), 19), (dict(width=width), 29), (dict(kind=38), 1), (dict(table=broken), 2),
                         (dict(table=over), 3), (dict(T=T), 4), (dict(liquid=rho), 4), (dict(vapour=W(322.0)), 6),
                         (dict(pressure_tolerance=0), 6), (dict(gibbs_tolerance=0), 7), (dict(vapour=W(321.0)), 8),
                         (dict(table=pulled), 21), (dict(table=EASY), 9), (dict(pressure_tolerance=WIDE), 9),
                         (dict(liquid=W(322.125)), 10)):
        bad.update(mend)
        assert pair_check(**bad).number == number


@at_each_width
def test_gap_of_one_subnormal(width):
    """Pressure is exactly zero there, so the gap is minus the target, down to the least f64 of all."""
    T, rho = W(300.0), W(322.0)
    assert density_check(width, 38, NONE, T, rho, 1, 0) == Answer(9, 0, (NEGATIVE | 1, NEGATIVE | 1))
    assert density_check(width, 38, NONE, T, rho, 0, 0).number == 11
    assert density_check(width, 38, NONE, T, rho, 1, 1).number == 11
    assert state_sheet(width, 38, NONE, T, rho).ends[:2] == (0, 0)


@at_each_width
def test_gap_must_lie_within(width):
    """Touching the tolerance is not enough: the whole bracket has to lie in it, and each end counts."""
    T, rho = W(300.0), W(1.0)
    low, high = (fraction(f64.exact(end)) for end in density_check(width, 38, EASY, T, rho, 0, WIDE).ends)
    assert low < high
    for target in (low, high):
        distance = f64.word(float(high - low))
        assert density_check(width, 38, EASY, T, rho, W(float(target)), distance).number == 0
        assert density_check(width, 38, EASY, T, rho, W(float(target)), under(distance)).number == 9


@at_each_width
def test_first_failing_stiffness(width):
    """The liquid is asked first, and the vapour too."""
    # both on the inner branch
    answer = pair_check(width, 38, table5(), W(640.0), W(323.0), W(321.0), WIDE, WIDE)
    assert answer.number == 11
    assert answer.ends == state_sheet(width, 38, table5(), W(640.0), W(323.0)).ends[2:]
    # the liquid is stiff, the vapour is on the inner branch
    answer = pair_check(width, 38, table5(), W(640.0), W(483.0), W(321.0), WIDE, WIDE)
    assert answer.number == 11
    assert answer.ends == state_sheet(width, 38, table5(), W(640.0), W(321.0)).ends[2:]


@at_each_width
def test_stiffness_of_exactly_zero_does_not_pass(width):
    half = packed(NINE, term38(0, 1, 0, 1, 5 * 10 ** 15))  # coefficient -1/2, at density 322
    state = state_sheet(width, 38, half, W(300.0), W(322.0))
    assert state.number == 0 and state.ends[2:] == (0, 0)
    assert density_check(width, 38, half, W(300.0), W(322.0), state.ends[0], WIDE) == Answer(11, 0, (0, 0))


@at_each_width
def test_gibbs_gap_is_asked_after_pressure(width):
    proposal = W(640.0), W(483.0), W(177.0)
    gap = gibbs_gap_of(width, terms_of(NINE, table5()), *map(f64.exact, proposal))
    assert pair_check(width, 38, table5(), *proposal, 0, 0).number == 9
    assert pair_check(width, 38, table5(), *proposal, WIDE, 0) == with_ends(10, gap)
    vapour = state_sheet(width, 38, table5(), W(640.0), W(177.0)).ends[:2]
    assert pair_check(width, 38, table5(), *proposal, WIDE, WIDE) == Answer(0, 0, vapour)


@at_each_width
def test_vapour_pressure_line(width):
    """02 f: a lower end of exactly 0 is not above it."""
    for table, zeros, number in zip(AT_ZERO[width], (2, 1, 0), (21, 21, 9)):
        ends = state_sheet(width, 38, table, W(300.0), W(161.0)).ends[:2]
        assert ends.count(0) == zeros and (ends[0] == 0) == (number == 21)
        answer = pair_check(width, 38, table, W(300.0), W(323.0), W(161.0), WIDE, WIDE)
        assert answer.number == number and (number == 9 or answer.ends == ends)


@at_each_width
def test_vapour_pressure_below_zero(width):
    """02 f: with the odd table two densities balance below zero.  All that is asked behind 21 passes."""
    (T, liquid, vapour), p, g = BELOW_ZERO, W(1000.0), W(1.0)
    terms = terms_of(NINE, odd_table())
    heavy, light = (phase(width, terms, f64.exact(T), f64.exact(rho)) for rho in (liquid, vapour))
    ln_q = logarithm_of_ratio(width, f64.exact(liquid), f64.exact(vapour))
    assert balance(heavy, light, ln_q, p, g).number == 0
    assert pressure(heavy).upper[0] < 0 and pressure(light).upper[0] < 0
    below = state_sheet(width, 38, odd_table(), T, vapour).ends[:2]
    assert pair_check(width, 38, odd_table(), T, liquid, vapour, p, g) == Answer(21, 0, below)
    # 21 stands before 9, and behind 8
    assert balance(heavy, light, ln_q, 0, 0).number == 9
    assert pair_check(width, 38, odd_table(), T, liquid, vapour, 0, 0) == Answer(21, 0, below)
    assert pair_check(width, 38, odd_table(), T, W(1288.0), vapour, p, g) == Answer(8, 0, (0, 0))
    # the density check and the state sheet take a pressure below zero as they did
    assert state_sheet(width, 38, odd_table(), T, vapour).number == 0
    assert density_check(width, 38, odd_table(), T, vapour, 0, WIDE).number == 9


def test_line():
    assert line(10, Answer(9, 0, (0xC0ABCDEF01234567, 10))) == "10 9 0 c0abcdef01234567 000000000000000a"
    assert line(1, Answer(2, 64, (0, 0))) == "1 2 64 0000000000000000 0000000000000000"


@at_each_width
def test_choices(width):
    state = state_sheet(width, 38, table5(), W(600.0), W(1.0))
    pair = pair_check(width, 38, table5(), W(640.0), W(323.0), W(321.0), WIDE, WIDE)
    assert [chosen(state, i) for i in range(8)] == [0, 0, *state.ends, 0, 0] and len(state.ends) == 4
    assert [chosen(pair, i) for i in range(8)] == [11, 0, *pair.ends, 0, 0, 0, 0] and len(pair.ends) == 2
    assert chosen(state, 2 ** 64 - 1) == 0
    broken = state_sheet(width, 38, packed(NINE, term38(0, 0, 0, 0, 1)), W(600.0), W(1.0))
    assert [chosen(broken, i) for i in range(3)] == [2, 1, 0]
