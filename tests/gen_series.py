"""Exponentials and logarithms, 350 of each at each width, and 250 more of each for the longer record's factors and
densities (fields as in stream.py).  Assumes the seeds below.

Record, 8 words: width, kind, then six words.
  0  the exponential of minus x: x (6), with 0 <= lower end and upper end <= 128; down to 2^-292
  1  the logarithm of a density ratio: liquid, vapour as f64, then 0 four times; both in range, liquid >= vapour
Line, 6 words: the bracket of the result.
"""

from random import Random

from second import f64
from second.bracket import Bracket, given, whole
from second.equation import CRITICAL_DENSITY, exponent
from second.exact import at_most
from second.exponential import GREATEST, exponential_of_minus
from second.kind import NINE, TWELVE
from second.logarithm import ln_2, logarithm_of_ratio
from second.sheet import ZERO, down, exact
from second.term import Term
from second.tests import samples
from second.verdict import WIDTHS
from stream import record, run_of, words_of_bracket

EACH, MORE = 350, 250
W = f64.word
THINNEST, DENSEST, DIVIDE = W(2.0 ** -10), W(1288.0), W(322.0)


def delta_power(bits, density, c):
    """delta^c by the step rules."""
    return (given(bits, *f64.exact(density)) / CRITICAL_DENSITY) ** c


def under_powers_of_two(bits):
    """Just below multiples of ln 2: the series' sum ends near a power of two, and its upper end mostly passes it on the last steps."""
    m, e = ln_2(bits + 32).lower
    for n in range(1, 93, 2):
        digits, place = down(bits, n * m, 1, e)
        x = (digits - 2, place)
        yield Bracket(bits, x, x)


def arguments(random, bits):
    """The ends of the range first, then delta^c over all densities, narrow and wide brackets, some from zero."""
    yield from (whole(bits, x) for x in (0, 64, 128, 1))
    yield from under_powers_of_two(bits)
    yield from (delta_power(bits, density, c) for density in (THINNEST, DENSEST, DIVIDE) for c in (1, 2, 3))
    while True:
        yield delta_power(bits, samples.density(random), random.randint(1, 3))
        x = samples.narrow(random, bits, low=-60, high=6.99)
        yield x
        yield samples.ordered(bits, random.choice([ZERO, x.lower]), samples.narrow(random, bits, high=6.99).upper)


def longer_arguments(random, bits):
    """The longer record's g: at the ends of c, factor and density, next to 128, and all over, down to 2^-292."""
    for x in (128 * 2 ** bits, 128 * 2 ** bits - 1):
        yield Bracket(bits, down(bits, x, 1, -bits), down(bits, x, 1, -bits))
    yield from (given(bits, 1, 1, -e) for e in (292, 291, 282, 150))
    while True:
        thin, any_density = random.choice([THINNEST, W(2.0 ** random.uniform(-10, 0))]), samples.density(random, TWELVE)
        for density in (thin, any_density):
            delta = given(bits, *f64.exact(density)) / CRITICAL_DENSITY
            factor = random.choice([1, 40, 100, 200, 1023, random.randint(1, 1023)])
            g = exponent(Term(random.choice([1, 2, 3, 6, 14, 15]), factor, 1, 0, 0, 1), delta)
            if at_most(exact(g.upper), GREATEST):
                yield g
        yield samples.narrow(random, bits, low=-292, high=random.choice([-60, 6.99]))
        x = samples.narrow(random, bits, low=6.9, high=7 - 2.0 ** -20)
        yield random.choice([x, Bracket(bits, samples.narrow(random, bits, low=-292, high=0).lower, x.upper)])


def ratios(random, kind):
    """The same density twice, neighbours, both ends, next to powers of two, and all over the range."""
    densest = W(samples.ends_of(kind.densities)[1])
    above, under = samples.above, samples.under
    yield from ((DIVIDE, DIVIDE), (densest, THINNEST), (above(DIVIDE), under(DIVIDE)), (above(DIVIDE), DIVIDE),
                (W(644.0), DIVIDE), (under(W(644.0)), DIVIDE), (above(W(644.0)), DIVIDE), (densest, DIVIDE),
                (above(W(1.0)), W(1.0)), (above(THINNEST), THINNEST), (densest, under(densest)), (densest, densest))
    while True:
        a, b = samples.density(random, kind), samples.density(random, kind)
        yield (a, b) if at_most(f64.exact(b), f64.exact(a)) else (b, a)
        vapour = W(2.0 ** random.uniform(-10, 0))
        power = vapour + (random.randint(0, 10 if kind == NINE else 11) << 52)  # 2^k times as much
        yield random.choice([power, above(power)]), vapour


def records():
    randoms = [Random(104 * bits) for bits in WIDTHS]
    for make, kind, count in ((arguments, NINE, EACH), (longer_arguments, TWELVE, MORE)):
        sources = [(bits, make(random, bits), ratios(random, kind)) for bits, random in zip(WIDTHS, randoms)]
        for _ in range(count):
            for bits, xs, pairs in sources:
                yield record(bits, 0, words_of_bracket(next(xs)))
                yield record(bits, 1, *next(pairs), [0] * 4)


def answer(reader):
    bits, kind = reader.word(), reader.word()
    if kind == 0:
        return words_of_bracket(exponential_of_minus(reader.bracket(bits)))
    liquid, vapour = reader.word(), reader.word()
    reader.take(32)
    return words_of_bracket(logarithm_of_ratio(bits, f64.exact(liquid), f64.exact(vapour)))


def runs():
    yield run_of(records(), answer)
