"""Calls of the three public functions with any input: over 3,000 at each width for nine-byte tables, over 2,000 for
twelve-byte ones, and some 500 at other widths and of other kinds (fields as in stream.py).  Assumes the seeds below.

Record: width and kind, which may be any numbers, function (0 state sheet, 1 density check, 2 pair check), a table of 0
to 800 bytes, five f64s, those not named being 0:
  0  T, density
  1  T, density, target, tolerance
  2  T, liquid, vapour, pressure tolerance, Gibbs tolerance
Line, 8 words: what the panel's call hands back for the choices 0 to 6 and for 2^64 - 1.
"""

from collections import Counter
from random import Random

import cut_off
import odd_pairs
from gen_pairs import liquid, near_322, vapour
from second import f64
from second.convert import lengthen
from second.kind import KINDS, NINE, TWELVE
from second.panel import chosen
from second.term import Term, packed
from second.tests import samples
from second.tests.test_kinds import CEILINGS_58
from second.tests.test_verdicts import AT_ZERO, BELOW_ZERO, CEILINGS, EASY, NONE
from second.verdict import WIDTHS, density_check, pair_check, state_sheet
from stream import record, run_of

EACH, PULLED, OTHERS, CUT = {38: 1000, 58: 600}, {38: 200, 58: 100}, 100, 12
CHOICES = list(range(7)) + [2 ** 64 - 1]
FUNCTIONS = ((state_sheet, 2), (density_check, 4), (pair_check, 5))  # with the count of f64s
LONGEST = {38: 600, 58: 800}  # a little more than each kind's longest table
W = f64.word


def a_table(random, kind):
    chance = random.randrange(10)
    if chance < 3:
        return samples.water(kind)
    if chance < 7:
        make = random.choice([samples.term, samples.gentle_term, samples.gentle_term])
        return samples.sound_table(random, random.choice([1, 3, 12]), make, kind)
    if chance < 9:
        return samples.damaged_table(random, random.randint(1, 3), kind)
    return random.getrandbits(6400).to_bytes(800, "big")[:random.randint(0, LONGEST[kind.number])]


def target(random, kind):
    most = samples.ends_of(kind.targets)[1]
    return random.choice([0, W(10.0 ** random.uniform(-3, 9)), W(most), W(1e9), samples.NEGATIVE, 1])


def tolerance(random):
    return random.choice([0, W(10.0 ** random.uniform(-3, 6)), W(1e6), W(1e6), samples.NEGATIVE])


def spoiled(random, fields):
    """One call in four has an odd f64 somewhere."""
    if random.randrange(4) == 0:
        fields[random.randrange(len(fields))] = samples.odd_f64(random)
    return fields


def states(random, kind):
    return [samples.temperature(random, kind), samples.density(random, kind)]


def densities(random, kind):
    return states(random, kind) + [target(random, kind), tolerance(random)]


def pairs(random, kind):
    densities = near_322(random) if random.randrange(2) else [liquid(random, kind), vapour(random)]
    return [samples.pair_temperature(random)] + densities + [tolerance(random), tolerance(random)]


def aimed(random, width, kind, table, fields):
    """A density check whose target lies at its own pressure: it gets as far as the stiffness."""
    answer = state_sheet(width, kind.number, table, *fields[:2])
    if answer.number == 0 and not answer.ends[0] >> 63 and random.randrange(2):
        fields[2] = random.choice([answer.ends[0], answer.ends[1], samples.above(answer.ends[1])])
        fields[3] = W(1e6)
    return fields


def fixed():
    """01's line at the ceiling, the trap of a gap that is a subnormal, 02 b's line at the triple point, and 02 f's
    vapours at zero and below it, with nine-byte tables."""
    for ceiling in CEILINGS.values():
        for table in ceiling.tables():
            yield 0, table, [ceiling.T, ceiling.rho]
            yield 1, table, [ceiling.T, ceiling.rho, W(1e9), W(1e6)]
            yield 2, table, [ceiling.T, ceiling.rho, W(1.0), W(1e6), W(1e6)]
    for goal, limit in ((1, 0), (1, 1), (0, 0), (samples.NEGATIVE, samples.NEGATIVE)):
        yield 1, NONE, [W(300.0), W(322.0), goal, limit]
    for T in (W(273.16), samples.under(W(273.16)), W(273.05), W(273.0), W(-273.16), samples.NAN):
        yield 0, EASY, [T, W(1.0)]
        yield 1, EASY, [T, W(1.0), 0, W(1e6)]
        yield 2, EASY, [T, W(323.0), W(321.0), W(1e6), W(1e6)]
    for rho in both_sides(322.0):
        yield 2, EASY, [W(300.0), rho, W(321.0), W(1e6), W(1e6)]
        yield 2, EASY, [W(300.0), W(323.0), rho, W(1e6), W(1e6)]
    for table in AT_ZERO[32] + AT_ZERO[53]:
        yield 2, table, [W(300.0), W(323.0), W(161.0), W(1e6), W(1e6)]
    T, *pair = BELOW_ZERO
    for rho in pair:
        yield 0, samples.odd_table(), [T, rho]
        yield 1, samples.odd_table(), [T, rho, 0, W(1e6)]
    yield 2, samples.odd_table(), [T, *pair, W(1000.0), W(1.0)]


def both_sides(*limits):
    """Each limit, and the f64s next to it."""
    for limit in limits:
        yield from (W(limit), samples.above(W(limit)), samples.under(W(limit)))


def fixed_58():
    """02 h: both sides of the longer record's limits, its ceiling, its terms' fields, lengths, and exponentials that
    are cut off."""
    easy = lengthen(EASY, 12).output
    for ceiling in CEILINGS_58.values():
        for table in ceiling.tables():
            yield 0, table, [ceiling.T, ceiling.rho]
            yield 1, table, [ceiling.T, ceiling.rho, W(25e9), W(1e6)]
            yield 2, table, [ceiling.T, ceiling.rho, W(1.0), W(1e6), W(1e6)]
    for T in both_sides(252.0, 273.0, 273.16, 1273.0):
        yield 0, easy, [T, W(1.0)]
        yield 1, easy, [T, W(1.0), 0, W(1e6)]
        yield 2, easy, [T, W(323.0), W(321.0), W(1e6), W(1e6)]
    for rho in both_sides(2.0 ** -10, 322.0, 1288.0, 2576.0):
        yield 0, easy, [W(300.0), rho]
        yield 1, easy, [W(300.0), rho, 0, W(1e6)]
        yield 2, easy, [W(300.0), rho, W(321.0), W(1e6), W(1e6)]
        yield 2, easy, [W(300.0), W(323.0), rho, W(1e6), W(1e6)]
    for goal in both_sides(0.0, 1e9, 25e9):
        yield 1, easy, [W(300.0), W(2576.0), goal, W(1e6)]
    for length in (0, 9, 11, 12, 13, 576, 585, 756, 767, 768, 769, 780):
        yield 0, (easy * 70)[:length], [W(300.0), W(1.0)]
    sound = Term(1, 100, 1, 0, 0, 1)
    for fields in ({"d": 0}, {"d": 31}, {"t": 25}, {"t": 63}, {"factor": 0}, {"factor": 1}, {"factor": 1023}, {"c": 0},
                   {"c": 15}, {"c": 0, "factor": 0}, {"magnitude": 0}, {"magnitude": 10 ** 17},
                   {"magnitude": 10 ** 17 + 1}, {"spare": 1}, {"spare": 512}):
        yield 0, easy + packed(TWELVE, sound._replace(**fields)), [W(500.0), W(0.5)]
    for rho in list(both_sides(644.0)) + [W(x) for x in (600.0, 700.0, 1288.0, 2576.0)]:
        yield 0, packed(TWELVE, Term(6, 200, 1, 0, 0, 10 ** 12)), [W(300.0), rho]
        yield 0, samples.table4(), [W(500.0), rho]
    T, *pair = BELOW_ZERO
    yield 2, lengthen(samples.odd_table(), 99).output, [T, *pair, W(1000.0), W(1.0)]


def cut(random, width):
    """Exponentials that are cut off and still count."""
    for table, T, rho in cut_off.states(random, width, CUT):
        yield width, 58, 0, table, [T, rho]
        yield width, 58, 1, table, [T, rho, 0, W(1e6)]


def any_call(random, width, kind, function):
    table, fields = a_table(random, kind), (states, densities, pairs)[function](random, kind)
    if function == 1:
        fields = aimed(random, width, kind, table, fields)
    return width, kind.number, function, table, spoiled(random, fields)


PLAIN = ([W(300.0), W(1.0)], [W(300.0), W(1.0), 0, W(1e6)], [W(300.0), W(323.0), W(321.0), W(1e6), W(1e6)])


def others(random, named, wrong):
    """Calls that name this width and kind: with an empty table, a broken one, one of a wrong length, and sound ones."""
    for width, kind in named:
        for table in (b"", bytes(9), bytes(10), bytes(12), EASY, lengthen(EASY, 12).output):
            yield from ((width, kind, function, table, PLAIN[function]) for function in range(3))
    for i in range(OTHERS):
        width, _, *call = any_call(random, random.choice(WIDTHS), random.choice([NINE, TWELVE]), i % 3)
        yield (*wrong(random, width), *call)


def some_number(random):
    return random.getrandbits(random.choice([6, 7, 32, 64]))


def other_widths(random):
    """19 comes first of all, whatever the kind."""
    named = [(width, kind) for width in samples.WRONG_WIDTHS for kind in (38, 58, 0)]
    yield from others(random, named, lambda random, _: (some_number(random), random.choice([38, 58, 37])))


def other_kinds(random):
    """29 comes right behind it, before 1."""
    named = [(width, kind) for width in WIDTHS for kind in samples.WRONG_KINDS]
    yield from others(random, named, lambda random, width: (width, some_number(random)))


def pulled(random, width, kind):
    table = odd_pairs.table(random, kind)
    return width, kind.number, 2, table, odd_pairs.proposal(random, table, kind)


def calls():
    for kind, made in ((38, fixed()), (58, fixed_58())):
        yield from ((width, kind, *call) for call in made for width in WIDTHS)
    for kind in KINDS.values():
        random = Random(108 + kind.number - 38)
        yield from (any_call(random, width, kind, function) for _ in range(EACH[kind.number]) for function in range(3)
                    for width in WIDTHS)
        random = Random(111 + kind.number - 38)
        yield from (pulled(random, width, kind) for _ in range(PULLED[kind.number]) for width in WIDTHS)
    yield from other_widths(Random(112))
    yield from other_kinds(Random(116))
    yield from (call for width in WIDTHS for call in cut(Random(120), width))


def packed_call(width, kind, function, table, fields):
    return record(width, kind, function, table, fields + [0] * (5 - len(fields)))


def answer(reader):
    width, kind, (function, count) = reader.word(), reader.word(), FUNCTIONS[reader.word()]
    table = reader.table()
    fields = [reader.word() for _ in range(5)]
    reply = function(width, kind, table, *fields[:count])
    return [chosen(reply, choice) for choice in CHOICES]


def runs():
    """At each width and for each kind every number from 0 to 11 occurs, 12 being the program's only, and 21 often; at
    other widths 19 alone, and of other kinds 29."""
    made = list(calls())
    run = run_of((packed_call(*call) for call in made), answer)
    numbers = {(width, kind): Counter() for width in WIDTHS for kind in KINDS}
    numbers[19], numbers[29] = Counter(), Counter()
    for (width, kind, *_), line in zip(made, run.lines):
        named = (width, kind) if kind in KINDS else 29
        numbers[named if width in WIDTHS else 19][int(line.split()[0], 16)] += 1
    for width in WIDTHS:
        for kind in KINDS:
            met = numbers[width, kind]
            assert set(met) == set(range(12)) | {21} and met[21] >= 50 and min(met.values()) >= 5, numbers
    assert set(numbers[19]) == {19} and set(numbers[29]) == {29}, numbers
    yield run
