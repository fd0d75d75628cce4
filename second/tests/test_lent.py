"""The calls that are lent a slice of terms: the plain calls' answers, 20 and its place among the numbers, and what the
slice holds afterwards (02 e).

`order_of_the_numbers` is for the comparisons too.  Assumes nothing.
"""

import random as randoms

from second import f64
from second.convert import lengthen
from second.kind import KINDS, MOST, NINE
from second.lent import DENSITY, PAIR, STATE, fields, lent
from second.term import Term, packed, table_of, terms_of
from second.tests import samples
from second.tests.samples import NAN, WRONG_KINDS, WRONG_WIDTHS, at_each_kind, table4, table5
from second.tests.test_terms import ROW_38
from second.tests.test_verdicts import AT_ZERO, EASY
from second.verdict import Answer

W = f64.word
WIDE = W(1e6)
CALLS = (STATE, DENSITY, PAIR)
NUMBERS = {STATE: [W(300.0), W(1.0)], DENSITY: [W(300.0), W(1.0), 0, WIDE],
           PAIR: [W(300.0), W(322.125), W(321.875), WIDE, WIDE]}  # accepted with small positive terms


def slice_of(room):
    return ["place %d" % place for place in range(room)]


def easy(kind, count):
    return (EASY if kind == NINE else lengthen(EASY, 12).output) * count


def unchanged(call, number, place, room, *inputs):
    """The number with zeros, and the slice as it was."""
    width, kind, table, *numbers = inputs
    assert lent(call, width, kind, table, slice_of(room), *numbers) == (
        Answer(number, place, (0,) * call.ends), slice_of(room)), (number, room)


def filled(call, number, room, *inputs):
    """The plain call's answer, which has this number, and the slice with the terms at its front."""
    width, kind, table, *numbers = inputs
    answer, places = lent(call, width, kind, table, slice_of(room), *numbers)
    terms = terms_of(KINDS[kind], table)
    assert answer == call.plain(*inputs) and answer.number == number, (answer, number)
    assert places[:len(terms)] == [(t.c, t.factor, t.d, t.t, t.negative, t.magnitude) for t in terms]
    assert places[len(terms):] == slice_of(room)[len(terms):] and len(places) == room


def test_places_of_terms():
    """A nine-byte term has the factor 100, or none without c; a longer one has its own."""
    _, places = lent(STATE, 32, 38, EASY + ROW_38, slice_of(3), NAN, NAN)
    assert places == [(0, 0, 1, 0, 0, 10 ** 13), (3, 100, 5, 15, 1, 121613940000000), "place 2"]
    _, places = lent(STATE, 53, 58, table4(), slice_of(70), NAN, NAN)
    assert places[54:56] == [(6, 40, 1, 50, 1, 70931833800000), (6, 200, 1, 50, 0, 70931833800000)]
    assert places[62:] == slice_of(70)[62:]
    for table in (table5(), samples.odd_table()):
        longer = lengthen(table, 768).output
        old, new = (lent(PAIR, 32, kind, lent_table, slice_of(64), *[NAN] * 5)
                    for kind, lent_table in ((38, table), (58, longer)))
        assert old == new and old.answer.number == 3
    assert fields(Term(15, 1023, 31, 63, 1, 10 ** 17)) == (15, 1023, 31, 63, 1, 10 ** 17)


@at_each_kind
def test_room_line(width, kind):
    """20 exactly if the slice holds fewer places than the table has terms."""
    for count in (1, 2, 3, 38, MOST):
        for call in CALLS:
            inputs = [width, kind.number, easy(kind, count), *NUMBERS[call]]
            for room in {0, count // 2, count - 1}:
                unchanged(call, 20, 0, room, *inputs)
            for room in {count, count + 1, MOST, MOST + 6} - set(range(count)):
                filled(call, 0, room, *inputs)


@at_each_kind
def test_any_table(width, kind):
    random = randoms.Random(71)
    for i in range(30):
        make = random.choice([samples.term, samples.gentle_term])
        table = samples.sound_table(random, random.choice([1, 2, 12]), make, kind)
        count, call = len(table) // kind.size, CALLS[i % 3]
        numbers = random.choice([NUMBERS[call], [NAN] * len(NUMBERS[call])])
        number = call.plain(width, kind.number, table, *numbers).number
        filled(call, number, count + random.randrange(3), width, kind.number, table, *numbers)
        unchanged(call, 20, 0, random.randrange(count), width, kind.number, table, *numbers)


@at_each_kind
def test_before_20(width, kind):
    """19, 29, 1 and 2 come first, whether the slice is long enough or not, and leave it alone."""
    broken = table_of(kind, terms_of(kind, easy(kind, 4)) + [Term(0, 0, 0, 0, 0, 1)] * 2)
    sound, full = easy(kind, 6), easy(kind, MOST)
    for call in CALLS:
        for numbers in (NUMBERS[call], [NAN] * len(NUMBERS[call])):
            for room in (0, 1, 5, 6, 70):
                for table in (b"", broken, sound, sound[:-1]):
                    for wrong in WRONG_WIDTHS:
                        unchanged(call, 19, 0, room, wrong, kind.number, table, *numbers)
                        unchanged(call, 19, 0, room, wrong, 37, table, *numbers)
                    for wrong in WRONG_KINDS:
                        unchanged(call, 29, 0, room, width, wrong, table, *numbers)
                for table in (b"", sound[:-1], sound + b"\0", full + sound[:kind.size], broken + b"\0"):
                    unchanged(call, 1, 0, room, width, kind.number, table, *numbers)
                unchanged(call, 2, 5, room, width, kind.number, broken, *numbers)


def high(kind):
    """Two terms with a pressure above either kind's ceiling."""
    return packed(kind, Term(0, 0, 1, 0, 0, 10 ** 17)) * 2


def pulled(width, kind):
    """A vapour without pressure at 161 kg/m3, from two terms."""
    one = terms_of(NINE, AT_ZERO[width][0])[0]
    return table_of(kind, [one._replace(magnitude=one.magnitude // 2)] * 2)


def order_of_the_numbers(width, kind):
    """For each call everything bad, then mended one by one: the call, its inputs by name, and the plain call's number.
    From 2 on every table has two terms or more."""
    sound, broken = easy(kind, 2), easy(kind, 1) + bytes(kind.size)
    densest = W(samples.ends_of(kind.densities)[1])
    none = packed(kind, Term(0, 0, 1, 0, 1, 5 * 10 ** 15)) * 2  # no pressure at 322, and it does not push back
    first = ((dict(), 19), (dict(width=width), 29), (dict(kind=kind.number), 1), (dict(table=broken), 2),
             (dict(table=high(kind)), 3), (dict(T=W(301.0)), 4))
    state = (("rho",), first + ((dict(rho=densest), 8), (dict(table=sound), 0)))
    density = (("rho", "target", "tolerance"),
               first + ((dict(rho=densest), 5), (dict(target=0), 6), (dict(tolerance=0), 8), (dict(table=sound), 9),
                        (dict(table=none, rho=W(322.0)), 11), (dict(table=sound, rho=W(1.0), tolerance=WIDE), 0)))
    pair = (("liquid", "vapour", "pressure_tolerance", "gibbs_tolerance"),
            first + ((dict(liquid=densest, vapour=W(322.0)), 6), (dict(pressure_tolerance=0), 6),
                     (dict(gibbs_tolerance=0), 7), (dict(vapour=W(161.0)), 8),
                     (dict(table=pulled(width, kind), liquid=W(323.0)), 21), (dict(table=sound), 9),
                     (dict(liquid=W(322.125), vapour=W(321.875), pressure_tolerance=WIDE), 10),
                     (dict(table=table_of(kind, terms_of(NINE, table5())), T=W(640.0), liquid=W(323.0),
                           vapour=W(321.0), gibbs_tolerance=WIDE), 11),
                     (dict(table=sound), 0)))
    for call, (names, steps) in zip(CALLS, (state, density, pair)):
        inputs = dict(width=31, kind=37, table=b"", T=NAN, **{name: NAN for name in names})
        for mend, number in steps:
            inputs.update(mend)
            yield call, dict(inputs), number


@at_each_kind
def test_order_of_the_numbers(width, kind):
    """With a slice that is too short 20 stands where 3 would, and behind it nothing else is asked."""
    met = {call: [] for call in CALLS}
    for call, inputs, number in order_of_the_numbers(width, kind):
        values, count = list(inputs.values()), len(inputs["table"]) // kind.size
        met[call].append(number)
        assert call.plain(**inputs).number == number, (number, inputs)
        if number in (19, 29, 1, 2):
            for room in (0, 1, 2, 70):
                unchanged(call, number, 2 if number == 2 else 0, room, *values)
        else:
            assert count >= 2
            for room in (0, 1, count - 1):
                unchanged(call, 20, 0, room, *values)
            for room in (count, count + 1, 70):
                filled(call, number, room, *values)
    assert met[STATE] == [19, 29, 1, 2, 3, 4, 8, 0]
    assert met[DENSITY] == [19, 29, 1, 2, 3, 4, 5, 6, 8, 9, 11, 0]
    assert met[PAIR] == [19, 29, 1, 2, 3, 4, 6, 6, 7, 8, 21, 9, 10, 11, 0]


def test_the_slice_does_not_count():
    """What it held before changes neither the answer nor the terms: those of another call, for one."""
    inputs = 32, 38, table5(), W(640.0), W(483.0), W(177.0), WIDE, WIDE
    first = lent(PAIR, *inputs[:3], slice_of(40), *inputs[3:])
    old = lent(STATE, 53, 58, table4(), [None] * 64, W(300.0), W(1.0)).places
    again = lent(PAIR, *inputs[:3], old[:40], *inputs[3:])
    assert first.answer == again.answer == PAIR.plain(*inputs) and first.answer.number == 0
    assert first.places[:38] == again.places[:38] and again.places[38:] == old[38:40]
