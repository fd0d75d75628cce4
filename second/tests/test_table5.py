"""Table 5 against what is known of water, with the rough search of tests/: a slip in the typed table would show.

Floats are used here; nothing else rests on them.
"""

import struct

import rough_search
from second import f64
from second.tests.samples import at_each_width, table5
from second.verdict import WIDTHS, pair_check, state_sheet

W = f64.word


def floats(answer):
    return [struct.unpack(">d", struct.pack(">Q", end))[0] for end in answer.ends]


@at_each_width
def test_critical_point(width):
    """Document 001 constrained the equation to 22.064 MPa at 647.14 K and 322 kg/m3, with no stiffness there."""
    low, high, softest, softer = floats(state_sheet(width, 38, table5(), W(647.14), W(322.0)))
    assert 22.0639e6 < low < high < 22.0641e6
    assert abs(softest) < 1 and abs(softer) < 1


@at_each_width
def test_boiling_point(width):
    liquid, vapour = rough_search.pair(373.15)
    answer = pair_check(width, 38, table5(), W(373.15), W(liquid), W(vapour), W(1e4), W(10.0))
    assert answer.number == 0
    low, high = floats(answer)
    assert 101.2e3 < low < high < 101.5e3
    assert abs(liquid - 958.4) < 0.2 and abs(vapour - 0.5977) < 0.001


@at_each_width
def test_saturation_line(width):
    """The rough search settles all along the line, and its pairs are accepted at a generous tolerance; the vapour's
    pressure is far above its bracket's width (docs/TOLERANCES.md)."""
    pressures = []
    for T in [273.16] + list(range(280, 641, 10)) + [645, 647]:
        liquid, vapour = rough_search.pair(T)
        answer = pair_check(width, 38, table5(), W(T), W(liquid), W(vapour), W(1e4), W(10.0))
        assert answer.number == 0, T
        low, high = floats(answer)
        assert low > 5e5 * (high - low), T
        pressures.append(low)
    assert pressures == sorted(pressures) and abs(pressures[0] - 611.66) < 0.5


@at_each_width
def test_rough_readings_agree(width):
    for T, rho in ((300.0, 996.5), (500.0, 0.25), (700.0, 400.0), (1273.0, 100.0)):
        low, high, softest, stiffest = floats(state_sheet(width, 38, table5(), W(T), W(rho)))
        slack = 1e-6 * rho * 461.5 * T
        assert low - slack < rough_search.pressure(T, rho) < high + slack
        assert softest - slack < rough_search.stiffness(T, rho) < stiffest + slack


def test_cold_water_is_narrow_at_53_bits():
    """02 d: near 300 K the liquid's pressure bracket is more than a million times narrower than at 32 bits."""
    for T in (273.16, 290.0, 300.0, 310.0):
        liquid, _ = rough_search.pair(T)
        coarse, fine = (floats(state_sheet(width, 38, table5(), W(T), W(liquid)))[:2] for width in WIDTHS)
        assert coarse[1] - coarse[0] > 10 ** 6 * (fine[1] - fine[0]) > 0
