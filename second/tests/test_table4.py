"""Table 4 against what is known of water and against Table 5, with the rough search of tests/: a slip in the typed
table would show.  tests/critical_point.py prints what it gives at the critical point.

Floats are used here; nothing else rests on them.
"""

from fractions import Fraction

import pack4
import rough_search
from second import f64
from second.equation import phase, pressure, stiffness
from second.kind import TWELVE
from second.tests.samples import at_each_width, data, table4
from second.tests.test_table5 import floats
from second.term import Term, first_broken, table_of, terms_of
from second.verdict import pair_check, state_sheet

W = f64.word
CRITICAL = W(647.14), W(322.0)


def critical(width, table):
    """Pressure's and stiffness' ends at the critical point, in Pa and Pa m3/kg."""
    return floats(state_sheet(width, 58, table, *CRITICAL))


def test_the_bytes_that_ship():
    assert data("terms58.bin") == pack4.table() and len(pack4.table()) == 62 * 12
    assert first_broken(TWELVE, table4()) == 0


def test_layout():
    """54 rows, then four rows twice: 40 hundredths with the coefficient, 200 with its negative."""
    terms, rows = terms_of(TWELVE, table4()), list(pack4.rows())
    assert [row[0] for row in rows] == list(range(1, 59))
    assert [term.c for term in terms] == [0] * 9 + [1] * 15 + [2] * 20 + [3] * 10 + [6] * 8
    assert [term.factor for term in terms] == [0] * 9 + [100] * 45 + [40, 200] * 4
    assert [(term.d, term.t) for term in terms[54::2]] == [(1, 50), (2, 40), (3, 32), (4, 26)]
    for first, second in zip(terms[54::2], terms[55::2]):
        assert second == first._replace(factor=200, negative=1 - first.negative)
    assert terms[0] == Term(0, 0, 1, 0, 0, 8216377478000000) and terms[11] == Term(1, 100, 1, 3, 1, 10305137400000000)


def test_digits():
    """Ten digits, the first not zero; a power only where one is printed."""
    for line in data("table4.txt").decode().split("\n")[:-1]:
        if not line.startswith("#"):
            digits = "".join(line.partition("x")[0].split()[5:]).lstrip("-")
            assert len(digits) == 12 and digits.startswith("0.") and digits[2] != "0"


def test_rounded_coefficients():
    """Rows 6 to 9 alone have digits below 10^-16, and each is packed as the nearest unit."""
    found = [(number, packed) for number, _, packed in pack4.rounded()]
    assert found == [(6, 28955903), (7, 140361), (8, 8184), (9, 2398)]
    for _, typed, packed in pack4.rounded():
        assert abs(typed - packed) < Fraction(1, 2)


def test_critical_point():
    """Document 001 constrained the equation to 22.064 MPa at 647.14 K and 322 kg/m3, with no stiffness there."""
    low, high, softest, softer = critical(53, table4())
    assert 22064000 - 1 < low < high < 22064000 + 1
    assert -0.001 < softest < softer < 0.001
    low, high, softest, softer = critical(32, table4())
    assert 22.0639e6 < low < high < 22.0641e6 and abs(softest) < 10 and abs(softer) < 10


def test_the_factor_is_not_48_hundredths():
    """With what (7.3) prints once the critical point is lost."""
    terms = [term._replace(factor=48 if term.factor == 40 else term.factor) for term in terms_of(TWELVE, table4())]
    low, high, softest, softer = critical(53, table_of(TWELVE, terms))
    assert high < 22064000 - 700 and softer < -100


def test_every_digit_counts_at_the_critical_point():
    """A row off by one in its last printed digit moves the pressure, if its coefficient is not too small for that."""
    terms = terms_of(TWELVE, table4())
    bits, state = 53, tuple(map(f64.exact, CRITICAL))
    right = phase(bits, terms, *state)
    for place in (0, 12, 30, 45, 50):
        digit = 10 ** 6 if terms[place].magnitude >= 10 ** 15 else 10 ** 5
        moved = list(terms)
        moved[place] = terms[place]._replace(magnitude=terms[place].magnitude + digit)
        wrong = phase(bits, moved, *state)
        assert (pressure(wrong).lower != pressure(right).lower) and (stiffness(wrong).lower != stiffness(right).lower)


def test_boiling_point():
    liquid, vapour = rough_search.pair(373.15, 58)
    answer = pair_check(53, 58, table4(), W(373.15), W(liquid), W(vapour), W(1.0), W(1.0))
    assert answer.number == 0
    low, high = floats(answer)
    assert 101.3e3 < low < high < 101.4e3
    assert abs(liquid - 958.4) < 0.2 and abs(vapour - 0.5977) < 0.001


def test_saturation_line():
    """Accepted all along the line at 53 bits, and near Table 5: the t of every row counts here."""
    pressures = []
    for T in [273.16] + list(range(280, 641, 20)) + [645, 647]:
        liquid, vapour = rough_search.pair(T, 58)
        answer = pair_check(53, 58, table4(), W(T), W(liquid), W(vapour), W(100.0), W(3e4 if T < 300 else 1.5e3))
        assert answer.number == 0, T
        low, high = floats(answer)
        other = rough_search.pair(T)
        assert abs(high / rough_search.pressure(T, other[1]) - 1) < 0.0005 + (high - low) / low, T
        assert T > 645 or abs(liquid / other[0] - 1) < 0.002, T
        pressures.append((low + high) / 2)
    assert pressures == sorted(pressures) and abs(pressures[0] - 611.66) < 1


def test_cold_vapour_is_wide():
    """docs/TOLERANCES.md: the two terms of row 55 nearly cancel in thin cold vapour, and each is large by tau^50.  At
    32 bits no cold pair gets past 21; of these from 400 K on none is refused with it."""
    for T in (273.16, 300.0, 320.0, 350.0, 373.15, 400.0, 450.0, 500.0, 640.0):
        answer = pair_check(32, 58, table4(), W(T), *map(W, rough_search.pair(T, 58)), W(1e6), W(1e6))
        assert answer.number == (21 if T < 400 else 0), T


def test_both_equations_agree():
    """Liquid and steam at moderate pressures: to a part in a thousand."""
    for T in (280, 320, 373, 450, 550):
        liquid = rough_search.pair(T)[0]
        for rho in (liquid * 1.01, liquid * 1.05):
            one, two = rough_search.pressure(T, rho), rough_search.pressure(T, rho, 58)
            assert one > 1e7 and abs(two - one) < 0.002 * one + 2e5, (T, rho)
    for T in (500, 600, 800, 1200):
        for rho in (0.5, 1.0, 10.0):
            assert abs(rough_search.pressure(T, rho, 58) / rough_search.pressure(T, rho) - 1) < 0.02, (T, rho)


@at_each_width
def test_rough_readings_agree(width):
    for T, rho in ((252.0, 1000.0), (300.0, 996.5), (500.0, 0.25), (700.0, 400.0), (1273.0, 100.0), (1273.0, 1800.0)):
        low, high, softest, stiffest = floats(state_sheet(width, 58, table4(), W(T), W(rho)))
        slack = 1e-6 * rho * 461.5 * T
        assert low - slack < rough_search.pressure(T, rho, 58) < high + slack
        assert softest - slack < rough_search.stiffness(T, rho, 58) < stiffest + slack
