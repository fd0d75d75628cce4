"""Sheet numbers and f64s: P1 to P8, down and up against their meaning, and exact reading and writing of f64s."""

import random as randoms
import struct
from fractions import Fraction
from math import ceil, floor

from second import f64
from second.bracket import given
from second.exact import at_most, fraction
from second.sheet import ZERO, down, exact, up
from second.tests import samples
from second.tests.samples import at_each_width

# p, q, then down and up as (m, e), at 32 bits and at 53
CASES = [
    ("P1", 1, 1, (2147483648, -31), (2147483648, -31), (4503599627370496, -52), (4503599627370496, -52)),
    ("P2", 1, 3, (2863311530, -33), (2863311531, -33), (6004799503160661, -54), (6004799503160662, -54)),
    ("P3", -1, 3, (-2863311531, -33), (-2863311530, -33), (-6004799503160662, -54), (-6004799503160661, -54)),
    ("P4", 2 ** 32 + 1, 1, (2147483648, 1), (2147483649, 1), (4503599628419072, -20), (4503599628419072, -20)),
    ("P5", 2 ** 33 - 1, 1, (4294967295, 1), (2147483648, 2), (9007199253692416, -20), (9007199253692416, -20)),
    ("P6", 1, 10, (3435973836, -35), (3435973837, -35), (7205759403792793, -56), (7205759403792794, -56)),
    ("P7", 322, 1, (2701131776, -23), (2701131776, -23), (5664683906301952, -44), (5664683906301952, -44)),
]
# P8, and P4 and P5 with as many digits more
LESS_A_THIRD = {32: ((2863311530, -32), (2863311531, -32)), 53: ((6004799503160661, -53), (6004799503160662, -53))}
PAST_53 = [
    (2 ** 53 + 1, (4503599627370496, 1), (4503599627370497, 1)),
    (2 ** 54 - 1, (9007199254740991, 1), (4503599627370496, 2)),
]


def test_P1_to_P7():
    for name, p, q, *ends in CASES:
        assert [down(32, p, q), up(32, p, q), down(53, p, q), up(53, p, q)] == ends, name


@at_each_width
def test_P8(width):
    result = 1 - given(width, 1, 3)
    assert (result.lower, result.upper) == LESS_A_THIRD[width]


def test_past_53_digits():
    for p, low, high in PAST_53:
        assert (down(53, p), up(53, p)) == (low, high)


def by_floor(bits, x, e):
    """Down and up of a fraction whose last place is known to be 2^e, as whole numbers of that unit."""
    places = x / Fraction(2) ** e
    assert 2 ** (bits - 1) <= abs(places) < 2 ** bits
    return floor(places), ceil(places)


def test_P1_to_P8_by_floor_and_ceiling():
    """The numbers of the cases once more, by fractions alone; a carry past the last digit is one place up."""
    for name, p, q, *ends in CASES:
        for bits, low, high in ((32, *ends[:2]), (53, *ends[2:])):
            lower, upper = by_floor(bits, Fraction(p, q), low[1])
            assert (lower, upper) == (low[0], high[0] << (high[1] - low[1])), name
    for bits, (low, high) in LESS_A_THIRD.items():
        m, n = by_floor(bits, Fraction(1, 3), -bits - 1)
        assert low == (floor(Fraction(2 ** (bits + 1) - n, 2)), -bits)
        assert high == (ceil(Fraction(2 ** (bits + 1) - m, 2)), -bits)


def all_sheet_numbers(bits, reach):
    sizes = [(m, e) for m in range(1 << (bits - 1), 1 << bits) for e in range(-reach, reach + 1)]
    return [ZERO] + sizes + [(-m, e) for m, e in sizes]


def test_down_and_up_by_their_meaning():
    """Against a list of all sheet numbers of few bits, for fractions well inside the list's reach."""
    random = randoms.Random(1)
    for bits in (2, 3, 5):
        numbers = sorted((fraction(exact(s)), s) for s in all_sheet_numbers(bits, 12))
        for _ in range(400):
            p, q, e = random.randint(-400, 400), random.randint(1, 40), random.randint(-2, 2)
            x = fraction((p, q, e))
            assert down(bits, p, q, e) == max(n for n in numbers if n[0] <= x)[1]
            assert up(bits, p, q, e) == min(n for n in numbers if n[0] >= x)[1]


@at_each_width
def test_small_addends_move_an_end(width):
    one, first, last = 1 << 20000, 1 << (width - 1), (1 << width) - 1
    assert down(width, one + 1, 1, -20000) == (first, 1 - width)
    assert up(width, one + 1, 1, -20000) == (first + 1, 1 - width)
    assert down(width, one - 1, 1, -20000) == (last, -width)
    assert down(width, -one - 1, 1, -20000) == (-first - 1, 1 - width)


@at_each_width
def test_order(width):
    random = randoms.Random(2)
    for _ in range(2000):
        a = samples.sheet(random, width, reach=40)
        b = samples.sheet_near(random, width, a)
        assert at_most(exact(a), exact(b)) == (fraction(exact(a)) <= fraction(exact(b)))


def test_f64_values():
    random = randoms.Random(3)
    for _ in range(2000):
        word = random.choice([random.getrandbits(64), samples.odd_f64(random), random.getrandbits(52)])
        x = struct.unpack(">d", struct.pack(">Q", word))[0]
        value = f64.exact(word)
        if value is None:
            assert x != x or x in (float("inf"), float("-inf"))
        else:
            assert fraction(value) == Fraction(x)


@at_each_width
def test_f64_of_exactly_that_value(width):
    random = randoms.Random(4)
    first, below = 1 << (width - 1), width - 1
    assert f64.of_sheet(ZERO) == 0
    assert f64.of_sheet((first, -1074 - below)) == 1
    assert f64.of_sheet((-first, -1074 - below)) == samples.NEGATIVE | 1
    for _ in range(1000):
        s = samples.sheet(random, width, 900)
        assert fraction(f64.exact(f64.of_sheet(s))) == fraction(exact(s))
    for s in ((first + 1, -1074 - below), (first, 1024 - below)):
        try:
            f64.of_sheet(s)
        except AssertionError:
            continue
        raise AssertionError("no f64 has this value")


def test_every_f64_is_a_sheet_number_of_53_bits():
    """So a given f64 is exact there, and comes back as the same bits, but for the sign of zero."""
    random = randoms.Random(5)
    for _ in range(2000):
        word = random.choice([random.getrandbits(64), samples.odd_f64(random), random.getrandbits(52)])
        if f64.exact(word) is not None:
            b = given(53, *f64.exact(word))
            assert b.lower == b.upper and f64.of_sheet(b.lower) == (word if word != samples.NEGATIVE else 0)
