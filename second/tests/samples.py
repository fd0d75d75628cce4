"""Random tables, f64s and sheet numbers for tests and comparisons, of nine-byte tables where no kind is named.

Assumes a seeded random.Random as `random`.
"""

import os
from math import log2

from second import f64
from second.bracket import Bracket, given
from second.exact import at_most, fraction
from second.kind import KINDS, MOST, NINE, TWELVE
from second.sheet import ZERO, exact
from second.term import LARGEST_MAGNITUDE, Term, packed, table_of
from second.verdict import WIDTHS

ROOT = os.path.dirname(os.path.dirname(os.path.dirname(os.path.abspath(__file__))))

INFINITY, NAN = f64.word(float("inf")), f64.word(float("nan"))
NEGATIVE = 1 << 63  # the bits of -0.0, and the sign of any f64
WRONG_WIDTHS = (0, 31, 33, 52, 54, 2 ** 32 + 32, 2 ** 64 - 1)
WRONG_KINDS = (0, 37, 39, 57, 59, 60, 580, 2 ** 32 + 38, 2 ** 64 - 1)


def at_each_width(test):
    """The same test at 32 and at 53 bits."""
    def at_both():
        for width in WIDTHS:
            test(width)
    return at_both


def at_each_kind(test):
    """The same test at each width and for each kind of table."""
    def at_all():
        for width in WIDTHS:
            for kind in KINDS.values():
                test(width, kind)
    return at_all


def data(name):
    with open(os.path.join(ROOT, "data", name), "rb") as file:
        return file.read()


def table5():
    return data("terms.bin")


def table4():
    return data("terms58.bin")


def water(kind):
    """The paper's table of this kind."""
    return table5() if kind == NINE else table4()


def odd_table():
    """A sound table with pressures below zero at densities that are in balance (data/propose.py)."""
    return data("odd.bin")


def sterilisers():
    """A steriliser's proposals, as the bench program reads them."""
    return data("proposals.bin")


# f64s

def above(word):
    """The next f64 above a finite one, by its bits."""
    if word == NEGATIVE:
        word = 0
    return word - 1 if word & NEGATIVE else word + 1


def under(word):
    """The next f64 below a finite one."""
    return above(word ^ NEGATIVE) ^ NEGATIVE


def between(random, low, high):
    """A random f64 from low to high, as bits."""
    return f64.word(random.uniform(low, high))


def ends_of(limits):
    """A range of the documents as floats, which all of its ends but 27316/100 are exactly."""
    return tuple(float(fraction(end)) for end in limits)


def temperature(random, kind=NINE):
    low, high = ends_of(kind.temperatures)
    return random.choice([between(random, low, high), f64.word(random.randint(int(low), int(high))), f64.word(low),
                          f64.word(high)])


def pair_temperature(random):
    """Mostly in the pair check's range; at times below it, where the other calls still answer."""
    first = f64.word(273.16)
    colder = random.choice([under(first), f64.word(273.05), f64.word(273.0), between(random, 273, 273.16)])
    return random.choice([between(random, 273.16, 1273), f64.word(random.randint(274, 1273)), first, f64.word(1273.0),
                          colder])


def density(random, kind=NINE):
    """Even in its logarithm, even on the line, few bits, or an end of the range."""
    low, high = ends_of(kind.densities)
    return random.choice([f64.word(2.0 ** random.uniform(-10, log2(high))), between(random, low, high),
                          f64.word(random.randint(1, int(high))), f64.word(random.choice([low, high, 322.0]))])


def odd_f64(random):
    """Any bits, the values that programs trip over, and neighbours of limits."""
    limit = f64.word(random.choice([0.0, 252.0, 273.0, 273.16, 1273.0, 2.0 ** -10, 1288.0, 2576.0, 322.0, 1e9, 25e9,
                                    1e6]))
    return random.choice([random.getrandbits(64), INFINITY, INFINITY | NEGATIVE, NAN, NAN | NEGATIVE, 0, NEGATIVE, 1,
                          NEGATIVE | 1, limit, above(limit), under(limit), limit ^ NEGATIVE])


# tables

def coefficient(random):
    """A sound magnitude: any size, round decimals, the ends."""
    return random.choice([random.randint(1, LARGEST_MAGNITUDE), random.randint(1, 10 ** random.randint(1, 17)),
                          random.randint(1, 10 ** 10) * 10 ** random.randint(0, 7), 1, LARGEST_MAGNITUDE])


def exponents(random, kind):
    """c and factor: both any, or such that the exponential is seldom cut off."""
    if kind == NINE:
        c = random.randrange(4)
        return c, 100 if c else 0
    return random.choice([(0, 0), (random.randint(1, 15), random.randint(1, 1023)),
                          (random.randint(1, 3), random.choice([1, 40, 99, 100, 101, 200, random.randint(1, 300)])),
                          (random.choice([1, 6, 15]), random.choice([1, 40, 100, 200, 1023]))])


def term(random, kind=NINE):
    return Term(*exponents(random, kind), random.randint(1, kind.widest("d")), random.randint(0, kind.largest_t),
                random.randrange(2), coefficient(random))


def gentle_term(random, kind=NINE):
    """Small enough that pressures stay under the ceiling more often than not."""
    return term(random, kind)._replace(d=random.randint(1, 4), t=random.randint(0, 6),
                                       magnitude=random.randint(1, 10 ** random.randint(8, 15)))


def sound_table(random, most=MOST, make=term, kind=NINE):
    """A table of random terms.  One of the longer record mostly has few different exponentials, as Table 4 has: each
    one takes a while."""
    terms = [make(random, kind) for _ in range(random.randint(1, most))]
    if kind == TWELVE and (len(terms) > 8 or random.randrange(8)):
        few = [exponents(random, kind) for _ in range(random.choice([1, 2, 3, 4]))]
        terms = [term._replace(c=c, factor=factor) for term, (c, factor) in
                 zip(terms, random.choices(few, k=len(terms)))]
    return table_of(kind, terms)


def broken_fields(random, kind):
    """What breaks a rule, each alone; with c and factor of a sound term left as they are unless they are named."""
    fields = [{"d": 0}, {"magnitude": 0}, {"magnitude": LARGEST_MAGNITUDE + 1},
              {"magnitude": random.randint(LARGEST_MAGNITUDE + 1, 2 ** 60 - 1)}]
    if kind == NINE:
        return fields + [{"t": random.randint(NINE.largest_t + 1, 31)}]
    return fields + [{"c": 0, "factor": random.randint(1, 1023)}, {"c": random.randint(1, 15), "factor": 0},
                     {"c": 0, "factor": 100}, {"spare": 1 << random.randrange(10)}, {"spare": random.randint(1, 1023)}]


def broken_term(random, kind=NINE):
    """One field, or several, outside its rule."""
    breaks, fields = broken_fields(random, kind), {}
    for chosen in random.sample(breaks, random.choice([1, 1, 1, 2, 3])):
        fields.update(chosen)
    return term(random, kind)._replace(**fields)


def damaged_table(random, places=1, kind=NINE):
    """A sound table with the given count of broken terms (as many as it holds)."""
    table = bytearray(sound_table(random, kind=kind))
    count = len(table) // kind.size
    for place in random.sample(range(count), min(places, count)):
        table[kind.size * place:kind.size * (place + 1)] = packed(kind, broken_term(random, kind))
    return bytes(table)


# sheet numbers

def sheet(random, bits, reach=20000, positive=False):
    """A sheet number with an exponent of at most `reach` either way: random digits, few digits, or next to a power."""
    m = random.choice([random.getrandbits(bits), random.getrandbits(3) << (bits - 4), (1 << bits) - 1, 0,
                       random.getrandbits(4)]) | 1 << (bits - 1)
    e = random.randint(-reach, reach)
    if positive or random.randrange(2):
        return (m, e)
    return (-m, e)


def neighbour(s):
    """The same but for the last digit."""
    m, e = s
    return (m ^ 1, e) if m >= 0 else (-(-m ^ 1), e)


def sheet_near(random, bits, s):
    """A sheet number whose last places lie near those of s, of either sign; at times s itself or its mirror."""
    m, e = s
    if m == 0:
        return sheet(random, bits)
    step = random.choice([0, 0, 1, -1, 2, random.randint(-bits - 8, bits + 8)])
    n = random.choice([m, -m, neighbour(s)[0], -neighbour(s)[0], sheet(random, bits)[0]])
    return (n, e + step)


def ordered(bits, a, b):
    return Bracket(bits, a, b) if at_most(exact(a), exact(b)) else Bracket(bits, b, a)


def bracket(random, bits, reach=300, positive=False):
    """Narrow, wide, a single value, or one that reaches over zero."""
    a = sheet(random, bits, reach, positive)
    b = random.choice([a, neighbour(a), sheet(random, bits, reach, positive), (a[0], a[1] + 1)])
    if not positive:
        a = random.choice([a, a, a, ZERO])
    return ordered(bits, a, b)


def narrow(random, bits, low=-4, high=7):
    """The bracket of one positive f64, between powers of two."""
    return given(bits, *f64.exact(f64.word(2.0 ** random.uniform(low, high))))


def holds(b, x):
    """Whether the fraction x lies in the bracket b."""
    return fraction(exact(b.lower)) <= x <= fraction(exact(b.upper))
