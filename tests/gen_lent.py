"""Calls of the three functions that are lent a slice for the table's terms, over 10,000 with slices of 0 to 70
places (fields as in stream.py).  Assumes the seeds below.

Record: width and kind, which may be any numbers, function (0 state sheet, 1 density check, 2 pair check), a table of 0
to 800 bytes, room (the count of the slice's places), five f64s as in gen_calls.py.
Line: what the call hands back for the choices 0 to 6 and for 2^64 - 1; then the slice after the call, six words a
place: c, factor, d, t, negative, magnitude.  Before the call the slice lies in a block, behind two places of a guard; a
place is six words, and word i of the block, from 1 on, is i times 0x9e3779b97f4a7c15.  Of a place's fifth word only the
lowest byte is a field.

Printed are how many calls and tables there are, the calls by number, and how often a short slice stood beside another
number; `python3 tests/gen_lent.py` prints these and runs nothing.
"""

import os
import sys
from collections import Counter, defaultdict
from functools import lru_cache
from random import Random
from struct import unpack
from typing import List, NamedTuple

sys.path.insert(0, os.path.dirname(os.path.dirname(os.path.abspath(__file__))))

import cut_off  # noqa: E402
import gen_calls  # noqa: E402
import repeats  # noqa: E402
from gen_calls import CHOICES, FUNCTIONS  # noqa: E402
from gen_proposals import PLUGS  # noqa: E402
from second import f64  # noqa: E402
from second.bench import SIZE  # noqa: E402
from second.convert import lengthen  # noqa: E402
from second.kind import KINDS, MOST, NINE, TWELVE  # noqa: E402
from second.lent import DENSITY, PAIR, STATE, lent  # noqa: E402
from second.panel import chosen  # noqa: E402
from second.term import table_of, terms_of  # noqa: E402
from second.tests import samples  # noqa: E402
from second.tests.test_lent import order_of_the_numbers  # noqa: E402
from second.verdict import WIDTHS  # noqa: E402
from stream import record, run_of  # noqa: E402

# One call comes with several slices; its answer is worked out once.
CALLS = tuple(call._replace(plain=lru_cache(maxsize=None)(call.plain)) for call in (STATE, DENSITY, PAIR))
NAMES = ("state sheet", "density check", "pair check")
NUMBERS = ({3, 4, 8, 0}, {3, 4, 5, 6, 8, 9, 11, 0}, {3, 4, 6, 7, 8, 21, 9, 10, 11, 0})  # of each call behind 20
ORDER = (19, 29, 1, 2, 20, 3, 4, 5, 6, 7, 8, 21, 9, 10, 11, 0)
LARGEST_ROOM = MOST + 6
GUARD, PLACE, MARK = 2, 6, 0x9e3779b97f4a7c15
REPEATED, FULL, DAMAGED, ANY, PULLED, CUT, PLUGGED = 40, 2, 60, 180, 30, 8, 6
W = f64.word


class Case(NamedTuple):
    width: int
    kind: int
    function: int
    table: bytes
    fields: List[int]

    def terms(self):
        """How many the table would have by its length; of a kind that is none, those of twelve bytes."""
        return len(self.table) // KINDS.get(self.kind, TWELVE).size

    def number(self):
        """The plain call's."""
        return CALLS[self.function].plain(self.width, self.kind, self.table, *self.fields).number


# slices

def rooms(random, count):
    """No place, one fewer than the table has terms, as many, one more, as many as any table has, and more than that."""
    return sorted({0, count - 1, count, count + 1, MOST, LARGEST_ROOM} & set(range(LARGEST_ROOM + 1)))


def some_rooms(random, count):
    """Both sides of the line, and one more."""
    return sorted({count - 1, count, random.choice([0, count + 1, MOST, LARGEST_ROOM])} & set(range(LARGEST_ROOM + 1)))


def short_and_long(random, count):
    short, enough = random.choice([0, count - 1, count // 2]), random.choice([count, count + 1, MOST, LARGEST_ROOM])
    return [max(0, min(room, LARGEST_ROOM)) for room in (short, enough)]


def one_room(random, count):
    return [random.choice(some_rooms(random, count) or [0, MOST, LARGEST_ROOM])]


# cases

def gentle_fields(random, width, kind, function, table):
    """Numbers with which most calls get as far as the ends."""
    T, rho = samples.between(random, 300, 1200), samples.between(random, 30, 900)
    if function == 0:
        return [T, rho]
    if function == 1:
        return gen_calls.aimed(random, width, kind, table, [T, rho, W(1e5), W(1e6)])
    return [T, samples.between(random, 323, 900), samples.between(random, 0.1, 321),
            *random.choice([(W(1e6), W(1e6)), (0, 0), (W(1e6), W(1e-3))])]


def repeated(random, width, kind):
    """Exponentials that come again."""
    for function in REPEATED * (0, 1, 2):
        table = repeats.table(random, kind)
        yield Case(width, kind.number, function, table, gentle_fields(random, width, kind, function, table))


def full(random, width):
    """Different exponentials throughout a full table, and some that come again only behind half of it."""
    for times in FULL * (1, 2):
        for function in range(3):
            table = repeats.full_table(random, times)
            yield Case(width, 58, function, table, gentle_fields(random, width, TWELVE, function, table))


def numbers_in_order(width, kind):
    """Everything bad, then mended one by one."""
    for call, inputs, number in order_of_the_numbers(width, kind):
        first, second, table, *fields = inputs.values()
        case = Case(first, second, (STATE, DENSITY, PAIR).index(call), table, fields)
        assert case.number() == number
        yield case


def each_count(random, width, kind):
    """Sound tables of each count of terms."""
    for count in range(1, MOST + 1):
        make, function = random.choice([samples.term, repeats.term, repeats.term]), random.randrange(3)
        table = (samples.sound_table(random, MOST, make, kind) * MOST)[:count * kind.size]
        fields = gen_calls.spoiled(random, gentle_fields(random, width, kind, function, table))
        yield Case(width, kind.number, function, table, fields)


def plain_fields(random, function):
    """Accepted ones, or NaN everywhere."""
    fields = gen_calls.PLAIN[function]
    return random.choice([fields, [samples.NAN] * len(fields)])


def each_broken_place(random, kind):
    """A full table broken in each place, and any tables broken in some."""
    tables = []
    for place in range(MOST):
        terms = [samples.term(random, kind) for _ in range(MOST)]
        terms[place] = samples.broken_term(random, kind)
        tables.append(table_of(kind, terms))
    tables += [samples.damaged_table(random, random.randint(1, 4), kind) for _ in range(DAMAGED)]
    for i, table in enumerate(tables):
        yield Case(random.choice(WIDTHS), kind.number, i % 3, table, plain_fields(random, i % 3))


def each_length(random, kind):
    """Tables of every length up to 800 bytes, most of them wrong; the others have NaN for all numbers."""
    easy = gen_calls.EASY if kind == NINE else lengthen(gen_calls.EASY, 12).output
    for length in range(801):
        table, function = (easy * 90)[:length], length % 3
        fields = gen_calls.PLAIN[function] if length % kind.size else [samples.NAN] * len(gen_calls.PLAIN[function])
        yield Case(random.choice(WIDTHS), kind.number, function, table, fields)


def other_widths_and_kinds(random):
    yield from (Case(*call) for call in gen_calls.other_widths(random))
    yield from (Case(*call) for call in gen_calls.other_kinds(random))


def any_calls(random, width, kind):
    for _ in range(ANY):
        for function in range(3):
            yield Case(*gen_calls.any_call(random, width, kind, function))


def pulled(random, width, kind):
    """Odd tables (02 f), whose pairs get to 21 and behind it; of their vapours some do not push back when squeezed."""
    for _ in range(PULLED):
        pair = Case(*gen_calls.pulled(random, width, kind))
        yield pair
        fields = [pair.fields[0], samples.between(random, 10, 200), 0, W(1e6)]
        yield pair._replace(function=1, fields=gen_calls.aimed(random, width, kind, pair.table, fields))


def cut(random, width):
    """Exponentials that are cut off and still count, each several times, among others."""
    for i, (table, T, rho) in enumerate(cut_off.states(random, width, CUT)):
        first = terms_of(TWELVE, table)[0]
        half = first._replace(magnitude=first.magnitude // 2, factor=max(1, first.factor // 2))
        table = table_of(TWELVE, [half, first] * 2) + table
        yield Case(width, 58, i % 2, table, [T, rho] if i % 2 == 0 else [T, rho, 0, W(1e6)])


def water(random, width, kind):
    """The paper's table: proposals that ship, and their phases."""
    proposals, table = samples.data(PLUGS[kind.number]), samples.water(kind)
    for place in random.sample(range(0, len(proposals) - SIZE + 1, SIZE), PLUGGED):
        fields = list(unpack(">5Q", proposals[place:place + SIZE]))
        yield Case(width, kind.number, 2, table, fields)
        for rho in fields[1:3]:
            yield Case(width, kind.number, 0, table, [fields[0], rho])
            density = gen_calls.aimed(random, width, kind, table, [fields[0], rho, W(1e5), W(1e6)])
            yield Case(width, kind.number, 1, table, density)


# calls

def groups():
    """Cases, and the slices that each is to be lent."""
    for kind in KINDS.values():
        yield each_broken_place(Random(121 + kind.number), kind), short_and_long
        yield each_length(Random(122 + kind.number), kind), one_room
        for width in WIDTHS:
            seed = width * kind.number
            yield numbers_in_order(width, kind), rooms
            yield each_count(Random(123 + seed), width, kind), some_rooms
            yield repeated(Random(124 + seed), width, kind), some_rooms
            yield any_calls(Random(125 + seed), width, kind), one_room
            yield pulled(Random(126 + seed), width, kind), some_rooms
            yield water(Random(127 + seed), width, kind), some_rooms
    for width in WIDTHS:
        yield full(Random(128 + width), width), some_rooms
        yield cut(Random(129 + width), width), some_rooms
    yield other_widths_and_kinds(Random(130)), short_and_long


def calls():
    random = Random(131)
    for cases, lending in groups():
        for case in cases:
            yield from ((case, room) for room in lending(random, case.terms()))


def packed_call(case, room):
    width, kind, function, table, fields = case
    return record(width, kind, function, table, room, fields + [0] * (5 - len(fields)))


def marked(room):
    """The places of a slice before a call."""
    words = [(i + 1) * MARK % 2 ** 64 for i in range(PLACE * GUARD, PLACE * (GUARD + room))]
    return [(*words[i:i + 4], words[i + 4] % 256, words[i + 5]) for i in range(0, len(words), PLACE)]


def answer(reader):
    width, kind, function, table = reader.word(), reader.word(), reader.word(), reader.table()
    room, fields = reader.word(), [reader.word() for _ in range(5)]
    reply = lent(CALLS[function], width, kind, table, marked(room), *fields[:FUNCTIONS[function][1]])
    return [chosen(reply.answer, choice) for choice in CHOICES] + [word for place in reply.places for word in place]


# counts

class Counts(NamedTuple):
    calls: int
    tables: int  # different ones
    numbers: Counter  # of calls, by function and number
    behind: Counter  # of calls that gave 20, by function and the number that they would have given else
    before: Counter  # of calls with a short slice that gave 19, 29, 1 or 2, by function and number
    each: defaultdict  # by width, kind and function: the numbers given, and (20, n) for each n that 20 hid
    places: set  # kind and place of 2
    rooms: set  # number and room
    spare: set  # number, and the room less the count of terms


def counted(made, lines):
    counts = Counts(len(made), len({case.table for case, _ in made}), Counter(), Counter(), Counter(),
                    defaultdict(set), set(), set(), set())
    for (case, room), line in zip(made, lines):
        number, place = (int(word, 16) for word in line.split(" ", 2)[:2])
        counts.numbers[case.function, number] += 1
        counts.each[case.width, case.kind, case.function].add(number)
        counts.rooms.add((number, room))
        counts.spare.add((number, room - case.terms()))
        if number == 20:
            counts.behind[case.function, case.number()] += 1
            counts.each[case.width, case.kind, case.function].add((20, case.number()))
        elif number in (19, 29, 1, 2) and room < case.terms():
            counts.before[case.function, number] += 1
        if number == 2:
            counts.places.add((case.kind, place))
    return counts


def made_run():
    made = list(calls())
    run = run_of((packed_call(*call) for call in made), answer)
    return run, counted(made, run.lines)


def listed(times, function):
    met = [number for number in ORDER if times[function, number]]
    return ", ".join("%d times %d" % (times[function, number], number) for number in met)


def shown(counts):
    """Lines that a person reads."""
    yield "%d calls with %d tables" % counts[:2]
    for function, name in enumerate(NAMES):
        yield "calls, %s: %s" % (name, listed(counts.numbers, function))
        yield "  20 in place of: %s; a short slice and before 20: %s" % (listed(counts.behind, function),
                                                                         listed(counts.before, function))


def runs():
    """At each width and for each kind every number of each call, given and hidden by 20; 19, 29, 1 and 2 beside a short
    slice; every place of a broken term; slices of each size about the line."""
    run, counts = made_run()
    print(*shown(counts), sep="\n")
    assert counts.calls >= 10000 and counts.tables >= 4000, counts[:2]
    for function, behind in enumerate(NUMBERS):
        expected = behind | {1, 2, 20} | {(20, number) for number in behind}
        assert all(counts.each[width, kind, function] == expected for width in WIDTHS for kind in KINDS), counts.each
        assert {number for which, number in counts.numbers if which == function} == behind | {19, 29, 1, 2, 20}
        assert min(counts.behind[function, number] for number in behind) >= 10, counts.behind
        assert min(counts.before[function, number] for number in (19, 29, 1, 2)) >= 50, counts.before
    assert min(counts.numbers.values()) >= 20, counts.numbers
    assert counts.places == {(kind, place) for kind in KINDS for place in range(1, MOST + 1)}
    assert counts.rooms >= {(number, room) for number in ORDER for room in (MOST, LARGEST_ROOM) if number != 20}
    assert counts.spare >= {(number, more) for number in ORDER[5:] for more in (0, 1)}
    assert (20, 0) in counts.rooms and max(more for number, more in counts.spare if number == 20) == -1
    yield run


if __name__ == "__main__":
    print(*shown(made_run()[1]), sep="\n")
