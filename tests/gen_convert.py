"""Tables to lengthen and to shorten, over 9,000 different ones, into lent buffers (fields as in stream.py).  Assumes
the seeds below.

Record: function (0 lengthens, 1 shortens), room (the buffer's length in bytes), the lent table of 0 to 800 bytes.
Line: what the call hands back for the choices 0 to 3 and for 2^64 - 1; then the block after the call as words: 8 bytes,
the buffer, 8 bytes, zeros up to a whole word.  Before the call byte i of the block is (37 i + 11) modulo 256.

Printed are how many tables there are, and the calls by number; `python3 tests/gen_convert.py` prints these and runs
nothing.
"""

import os
import sys
from collections import Counter
from random import Random

sys.path.insert(0, os.path.dirname(os.path.dirname(os.path.abspath(__file__))))

from gen_texts import CHOICES, near, words_of_block  # noqa: E402
from second.convert import lengthen, shorten  # noqa: E402
from second.kind import MOST, NINE, TWELVE  # noqa: E402
from second.output import chosen  # noqa: E402
from second.term import Term, packed, table_of, terms_of  # noqa: E402
from second.tests import samples  # noqa: E402
from second.tests.test_convert import new_only  # noqa: E402
from stream import record, run_of  # noqa: E402

LENGTHEN, SHORTEN = 0, 1
CALLS = (lengthen, shorten)
KIND = (NINE, TWELVE)  # of the lent table
ROOMY = 1000
SHORT = 5  # terms of most tables
TRIPS, EDGES, SOME, MIXED, RAGGED = 1200, 100, 900, 500, 300


def count_of_terms(random):
    return random.choice([random.randint(1, SHORT)] * 12 + [random.randint(1, MOST), MOST])


def old_terms(random):
    return [samples.term(random) for _ in range(count_of_terms(random))]


def call(random, function, table):
    """With a buffer as long as the output, a little longer or shorter, or none."""
    output = CALLS[function](table, ROOMY).output
    return function, near(random, len(output) or random.randint(1, 3 * len(table) // 2 + 1)), table


# both round trips

def round_trips(random):
    """A nine-byte table is lengthened, and what comes of it is shortened; for some into buffers of every size near the
    line, none among them."""
    for i in range(TRIPS):
        table = table_of(NINE, old_terms(random))
        longer = lengthen(table, ROOMY).output
        assert shorten(longer, ROOMY).output == table
        yield call(random, LENGTHEN, table)
        yield call(random, SHORTEN, longer)
        if i < EDGES:
            for function, lent, size in ((LENGTHEN, table, len(longer)), (SHORTEN, longer, len(table))):
                yield from ((function, room, lent) for room in (0, 1, size - 1, size, size + 1, size + 700))


# terms

def single_fields():
    """Terms of the old form with one field at each of its numbers, so that every way out of that form is there alone;
    c with the factor 100 as well, and both of them together."""
    for c, factor in ((0, 0), (1, 100), (2, 100), (3, 100)):
        old = Term(c, factor, 7, 11, c % 2, 10 ** 16 + c)
        yield from (old._replace(c=n) for n in range(16))
        yield from (old._replace(factor=n) for n in range(1024))
        yield from (old._replace(d=n) for n in range(32))
        yield from (old._replace(t=n) for n in range(64))
        yield from (old._replace(negative=n) for n in range(2))
        yield from (old._replace(magnitude=n) for n in (0, 1, 2, 10 ** 17 - 1, 10 ** 17, 10 ** 17 + 1, 2 ** 60 - 1))
        yield from (old._replace(spare=1 << n) for n in range(10))
    yield from (Term(c, 100, 15, 24, 0, 1) for c in range(16))
    yield from (Term(c, 0, 15, 24, 0, 1) for c in range(16))


def nine_bytes():
    """The same of nine bytes: each field at each of its numbers."""
    for c in range(4):
        old = Term(c, 100 if c else 0, 7, 11, c % 2, 10 ** 16 + c)
        yield from (old._replace(d=n) for n in range(16))
        yield from (old._replace(t=n) for n in range(32))
        yield from (old._replace(magnitude=n) for n in (0, 1, 10 ** 17, 10 ** 17 + 1, 2 ** 60 - 1))


def every_bit(random):
    """Every bit of a term turned round."""
    for kind, function in ((NINE, LENGTHEN), (TWELVE, SHORTEN)):
        for _ in range(4):
            number = int.from_bytes(packed(kind, samples.term(random)), "big")
            yield from ((function, (number ^ 1 << bit).to_bytes(kind.size, "big")) for bit in range(8 * kind.size))


# tables

def with_some(random, terms, make):
    """Up to three of the terms as `make` gives them."""
    terms = list(terms)
    for place in random.sample(range(len(terms)), random.randint(1, min(3, len(terms)))):
        terms[place] = make(random, terms[place])
    return terms


def broken_new(random, _):
    return samples.broken_term(random, TWELVE)


def broken_old(random, _):
    return samples.broken_term(random)


def tables(random):
    """No old form, broken, both; each of these in each place of a full table; any bytes; wrong lengths; the tables that
    ship, each both ways."""
    for _ in range(SOME):
        yield SHORTEN, table_of(TWELVE, with_some(random, old_terms(random), new_only))
        yield LENGTHEN, table_of(NINE, with_some(random, old_terms(random), broken_old))
    for _ in range(MIXED):
        yield SHORTEN, table_of(TWELVE, with_some(random, old_terms(random), broken_new))
        both = with_some(random, with_some(random, old_terms(random), new_only), broken_new)
        yield SHORTEN, table_of(TWELVE, both)
        yield SHORTEN, samples.sound_table(random, random.choice([1, 3]), kind=TWELVE)
    for place in range(MOST):
        for function, make in ((SHORTEN, new_only), (SHORTEN, broken_new), (LENGTHEN, broken_old)):
            terms = [samples.term(random) for _ in range(MOST)]
            terms[place] = make(random, terms[place])
            yield function, table_of(KIND[function], terms)
    for length in range(0, 801, 1):
        for function in (LENGTHEN, SHORTEN):
            terms = (samples.term(random) for _ in range(length // KIND[function].size + 1))
            yield function, table_of(KIND[function], terms)[:length]
    for _ in range(RAGGED):
        yield random.randrange(2), random.getrandbits(6400).to_bytes(800, "big")[:random.randint(0, 800)]
    for table in (samples.table5(), samples.table4(), samples.odd_table(), lengthen(samples.table5(), ROOMY).output):
        yield LENGTHEN, table
        yield SHORTEN, table


def calls():
    yield from round_trips(Random(117))
    random = Random(118)
    yield from (call(random, SHORTEN, packed(TWELVE, term)) for term in single_fields())
    yield from (call(random, LENGTHEN, packed(NINE, term)) for term in nine_bytes())
    yield from (call(random, function, table) for function, table in every_bit(random))
    yield from (call(random, function, table) for function, table in tables(random))


def answer(reader):
    function, room, lent = reader.word(), reader.word(), reader.table()
    reply = CALLS[function](lent, room)
    return [chosen(reply, choice) for choice in CHOICES] + words_of_block(room, reply.output)


# counts

def made_run():
    """The run, the count of different tables, the calls by function and number, and the places of 2 and 22."""
    made = list(calls())
    run = run_of((record(*one) for one in made), answer)
    numbers, places = Counter(), set()
    for (function, _, _), line in zip(made, run.lines):
        number, place = (int(word, 16) for word in line.split(" ", 2)[:2])
        numbers[function, number] += 1
        places.add((function, number, place))
    return run, len({(function, table) for function, _, table in made}), numbers, places


def shown(count, numbers):
    """Three lines a person reads."""
    yield "%d tables" % count
    for function, name in ((LENGTHEN, "lengthening"), (SHORTEN, "shortening")):
        met = sorted(number for which, number in numbers if which == function)
        yield "calls, %s: %s" % (name, ", ".join("%d times %d" % (numbers[function, n], n) for n in met))


def runs():
    """Every number of both calls often, and every place of a term that is broken or has no old form."""
    run, count, numbers, places = made_run()
    print(*shown(count, numbers), sep="\n")
    assert count >= 9000, count
    assert set(numbers) == {(LENGTHEN, n) for n in (0, 1, 2, 18)} | {(SHORTEN, n) for n in (0, 1, 2, 18, 22)}, numbers
    assert min(numbers.values()) >= 300, numbers
    every = range(1, MOST + 1)
    expected = {(LENGTHEN, 2, place) for place in every} | {(SHORTEN, n, place) for n in (2, 22) for place in every}
    assert places == expected | {(f, n, 0) for f in (LENGTHEN, SHORTEN) for n in (0, 1, 18)}
    yield run


if __name__ == "__main__":
    _, *found = made_run()
    print(*shown(*found[:2]), sep="\n")
