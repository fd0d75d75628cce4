"""Calls of the vapour card with any input, over 5,000 at each width and some 200 at other widths (fields as in
stream.py).  Assumes the seeds below.

Record: width, which may be any number, a table of 0 to 800 bytes, T, density.
Line, 10 words: what the call hands back for the choices 0 to 8 and for 2^64 - 1.

Printed are how many calls and tables there are, the calls by number, and what cards there are; `python3
tests/gen_cards.py` prints these and runs nothing.
"""

import os
import sys
from collections import Counter
from random import Random

sys.path.insert(0, os.path.dirname(os.path.dirname(os.path.abspath(__file__))))

from gen_calls import both_sides  # noqa: E402
from second import f64  # noqa: E402
from second.kind import MOST, NINE  # noqa: E402
from second.panel import chosen  # noqa: E402
from second.term import packed, table_of, term38, terms_of  # noqa: E402
from second.tests import samples  # noqa: E402
from second.tests.test_verdicts import EASY  # noqa: E402
from second.verdict import WIDTHS  # noqa: E402
from second.virial import vapour_card  # noqa: E402
from stream import record, run_of  # noqa: E402

CHOICES = list(range(9)) + [2 ** 64 - 1]
LIMITS = (273.0, 1123.0, 2.0 ** -10, 55.0)
OTHER_LIMITS = (252.0, 273.16, 322.0, 1273.0, 1288.0)  # of other calls
EACH, PULLED, OTHERS = 4000, 200, 100
POWERS = (1, 1, 1, 2, 2, 2, 3, 15)  # d of most terms
ONE = 10 ** 16  # a magnitude of this much is the coefficient 1
W = f64.word


# tables

def term(random, powers=POWERS):
    return samples.term(random)._replace(d=random.choice(powers))


def terms(random, powers=POWERS):
    count = random.choice([1, 2, 3, random.randint(4, 12), random.randint(4, MOST), MOST])
    return [term(random, powers) for _ in range(count)]


def without_linear(random):
    return terms(random, (2, 2, 3, 4, 15))


def without_square(random):
    return terms(random, (1, 1, 3, 4, 15))


def without_both(random):
    return terms(random, tuple(range(3, 16)))


def any_terms(random):
    return [samples.term(random) for _ in range(random.randint(1, MOST))]


def plain_terms(random):
    """Few digits, and t = 0 mostly: sums without any rounding, some of them just zero."""
    return [one._replace(t=random.choice([0, 0, 0, 1]), magnitude=random.randint(1, 9) * (ONE >> random.randrange(9)))
            for one in terms(random)[:6]]


def opposed(random):
    """Each term once more with the other sign, or with d = 2 beside d = 1: sums that come near zero, and at times just
    to it."""
    few = random.choice([terms, plain_terms])(random)[:MOST // 2]
    few = [one._replace(c=1, factor=100, d=random.choice([1, 2])) for one in few]
    change = random.choice([lambda one: one._replace(negative=1 - one.negative), lambda one: one._replace(d=3 - one.d)])
    return random.sample([*few, *map(change, few)], 2 * len(few))


def water_terms(_):
    return terms_of(NINE, samples.table5())


MAKES = (terms, terms, without_linear, without_square, without_both, any_terms, plain_terms, opposed, water_terms)


def sound(random):
    return table_of(NINE, random.choice(MAKES)(random))


def damaged(random):
    return samples.damaged_table(random, random.randint(1, 3))


def ragged(random):
    return random.choice([random.getrandbits(6400).to_bytes(800, "big")[:random.randint(0, 600)], samples.table4(),
                          sound(random)[:-random.randint(1, 8)], sound(random) + bytes(random.randint(1, 9))])


def a_table(random):
    return random.choice([sound] * 8 + [damaged, ragged])(random)


# numbers

def temperature(random):
    return random.choice([samples.between(random, 273, 1123), W(random.randint(273, 1123)), W(647.14), W(273.0),
                          W(1123.0)])


def density(random):
    return random.choice([W(2.0 ** random.uniform(-10, 5.78)), samples.between(random, 2 ** -10, 55),
                          W(random.randint(1, 55)), W(2.0 ** random.randint(-10, 5)), W(2.0 ** -10), W(55.0)])


def odd(random):
    return random.choice([samples.odd_f64(random), *both_sides(*LIMITS, *OTHER_LIMITS)])


def state(random):
    """One in six has an odd f64."""
    x = [temperature(random), density(random)]
    if random.randrange(6) == 0:
        x[random.randrange(2)] = odd(random)
    return x


# calls

def fixed():
    """Both sides of each limit, of this call and of others, with each of the two; what no number is; lengths of tables;
    a term's fields; no ceiling; each choice of c and d."""
    odd = [samples.NAN, samples.NAN | samples.NEGATIVE, samples.INFINITY, samples.INFINITY | samples.NEGATIVE, 0,
           samples.NEGATIVE, 1, W(-300.0), W(-1.0)]
    for x in odd + list(both_sides(*LIMITS, *OTHER_LIMITS)):
        yield from ((table, x, W(1.0)) for table in (EASY, samples.table5()))
        yield from ((table, W(300.0), x) for table in (EASY, samples.table5()))
        yield EASY, x, x
    for length in range(0, 601):
        yield (EASY * 70)[:length], W(300.0), W(1.0) if length % 2 else samples.NAN
    least = term38(0, 1, 0, 0, 1)
    for fields in ({"d": 0}, {"d": 15}, {"t": 24}, {"t": 25}, {"t": 31}, {"magnitude": 0}, {"magnitude": 10 ** 17},
                   {"magnitude": 10 ** 17 + 1}, {"magnitude": 2 ** 60 - 1}):
        yield EASY + packed(NINE, least._replace(**fields)) + bytes(9), W(500.0), W(0.5)
        yield EASY + packed(NINE, least._replace(**fields)), W(500.0), W(0.5)
    for negative in (0, 1):
        for T, rho in ((273.0, 55.0), (1123.0, 55.0), (273.0, 2.0 ** -10)):
            yield packed(NINE, term38(1, 1, 24, negative, 10 ** 17)) * MOST, W(T), W(rho)
            yield packed(NINE, term38(0, 2, 24, negative, 10 ** 17)) * MOST, W(T), W(rho)
    for c in range(4):
        for d in range(1, 16):
            yield packed(NINE, term38(c, d, d, c % 2, 10 ** 16 // 3)), W(400.0), W(10.0)


def each_broken_place(random):
    for place in range(MOST):
        full = [samples.term(random) for _ in range(MOST)]
        full[place] = samples.broken_term(random)
        yield table_of(NINE, full), random.choice([W(300.0), samples.NAN]), random.choice([W(1.0), samples.NAN])


def each_count(random):
    """Sound tables of each count of terms."""
    for count in range(1, MOST + 1):
        yield table_of(NINE, [term(random) for _ in range(count)]), temperature(random), density(random)


def water():
    """The paper's table over the whole profile."""
    for T in (273.0, 273.16, 300.0, 373.15, 400.0, 500.0, 647.14, 800.0, 1000.0, 1123.0):
        for rho in (2.0 ** -10, 0.01, 0.5975, 1.0, 3.0, 10.0, 30.0, 55.0):
            yield samples.table5(), W(T), W(rho)


def pulled(random):
    """1 + B rho near zero, and with it the pressure: c 0, d 1, t 0 and a coefficient of -322 over rho."""
    for i in range(PULLED):
        rho = random.choice([46.0, 40.25, random.uniform(33, 55)])
        near = int(322 / rho * ONE) + random.choice([0, 1, -1, random.randint(-10 ** 7, 10 ** 7)])
        yield packed(NINE, term38(0, 1, 0, 1, near)) + packed(NINE, term38(1, 3, 1, 0, 1)) * (i % 2), W(400.0), W(rho)


def other_widths(random):
    """19 comes first of all."""
    for width in samples.WRONG_WIDTHS:
        for table in (b"", bytes(9), bytes(10), EASY):
            yield from ((width, table, *x) for x in ([W(300.0), W(1.0)], [samples.NAN] * 2, [W(1200.0), W(1.0)]))
    for _ in range(OTHERS):
        width = random.getrandbits(random.choice([6, 7, 32, 64]))
        yield 54 if width in WIDTHS else width, a_table(random), *state(random)


def calls():
    for width in WIDTHS:
        random = Random(141)
        made = [*fixed(), *each_broken_place(random), *each_count(random), *water(), *pulled(random)]
        yield from ((width, *call) for call in made)
        random = Random(142 + width)
        yield from ((width, a_table(random), *state(random)) for _ in range(EACH))
    yield from other_widths(Random(143))


def answer(reader):
    reply = vapour_card(reader.word(), reader.table(), reader.word(), reader.word())
    return [chosen(reply, choice) for choice in CHOICES]


# counts

def sign(low, high):
    """Of a bracket, by the bits of its ends."""
    if low == high == 0:
        return "zero"
    if low < samples.NEGATIVE:
        return "above zero" if low else "from zero"
    if high == 0:
        return "up to zero"
    return "over zero" if high < samples.NEGATIVE else "below zero"


def kinds_of_card(table, ends):
    """What is told of an accepted card: of its terms, and of its brackets."""
    found = {(term.c, term.d) for term in terms_of(NINE, table)}
    powers = {d for _, d in found}
    yield from ("without d = %d" % d for d in (1, 2) if d not in powers)
    yield from ("with d = 1 and c = %d" % c for c in range(4) if (c, 1) in found)
    yield from ("%s %s" % (name, sign(*ends[i:i + 2])) for name, i in (("B", 0), ("C", 2), ("pressure", 4)))
    yield from ("terms whose %s is zero" % name for name, i, d in (("B", 0, 1), ("C", 2, 2))
                if d in powers and sign(*ends[i:i + 2]) == "zero")
    if W(1e9) < ends[5] < samples.NEGATIVE:
        yield "pressure above 10^9"
    if len(table) == NINE.size * MOST:
        yield "64 terms"


def made_run():
    """The run, the count of different tables, the calls by width and number, the cards by width and kind, and the
    places of 2."""
    made = list(calls())
    run = run_of((record(*call) for call in made), answer)
    numbers, cards, places = Counter(), Counter(), set()
    for (width, table, *_), line in zip(made, run.lines):
        number, place, *ends = (int(word, 16) for word in line.split())
        width = width if width in WIDTHS else None
        numbers[width, number] += 1
        if number == 0:
            cards.update((width, kind) for kind in kinds_of_card(table, ends))
        if number == 2:
            places.add((width, place))
    return run, len({table for _, table, *_ in made}), numbers, cards, places


def listed(counter, width):
    return ", ".join("%s: %d" % (what, count) for (which, what), count in sorted(counter.items(), key=str)
                     if which == width)


def shown(run, tables, numbers, cards, _):
    """Lines that a person reads."""
    yield "%d calls with %d tables" % (len(run.lines), tables)
    yield "calls at other widths by number: %s" % listed(numbers, None)
    for width in WIDTHS:
        yield "calls at %d bits by number: %s" % (width, listed(numbers, width))
        yield "cards at %d bits: %s" % (width, listed(cards, width))


SIDES = (" above zero", " below zero", " over zero")


def runs():
    """Every number of the call at each width, and at other widths 19 alone; every place of a broken term; and cards of
    all kinds that the rules tell apart."""
    found = made_run()
    print(*shown(*found), sep="\n")
    run, tables, numbers, cards, places = found
    assert len(run.lines) >= 10000 and tables >= 8000, (len(run.lines), tables)
    assert set(numbers) == {(width, n) for width in WIDTHS for n in range(5)} | {(None, 19)}, numbers
    assert min(numbers.values()) >= 100, numbers
    assert places == {(width, place) for width in WIDTHS for place in range(1, MOST + 1)}
    for width in WIDTHS:
        for kind in ("without d = 1", "without d = 2", *("with d = 1 and c = %d" % c for c in range(4)), "64 terms"):
            assert cards[width, kind] >= 200, (width, kind)
        for kind in ("terms whose B is zero", "terms whose C is zero", "pressure above 10^9",
                     *(name + side for name in ("B", "C", "pressure") for side in SIDES)):
            assert cards[width, kind] >= 20, (width, kind)
    yield run


if __name__ == "__main__":
    print(*shown(*made_run()), sep="\n")
