"""Tables of packed terms of both kinds, 5,000 and more of each (fields as in stream.py).  Assumes the seeds below.

Record: kind (38 or 58), a table of 0 to 800 bytes.
Line: the number (0 sound, 1 length, 2 broken term) and the place; for a sound table then six words a term:
c, factor in hundredths, d, t, sign (1 for negative), magnitude.
"""

from collections import Counter
from random import Random

from second.kind import KINDS, MOST, TWELVE
from second.term import packed, table_of, table_refusal, terms_of
from second.tests import samples
from second.tests.test_convert import new_only
from stream import record, run_of

SOUND, DAMAGED, RAGGED = 1300, 1600, 200
LONGEST = {38: 600, 58: 800}  # a little more than each kind's longest table


def tables(random, kind):
    longest, size = LONGEST[kind.number], kind.size
    for length in range(longest + 1):
        yield table_of(kind, (samples.term(random, kind) for _ in range(length // size + 1)))[:length]
        yield random.getrandbits(8 * length).to_bytes(length, "big")
    yield samples.water(kind)
    for _ in range(SOUND):
        yield samples.sound_table(random, random.choice([1, 4, MOST]), kind=kind)
    for _ in range(DAMAGED):
        yield samples.damaged_table(random, kind=kind)
        yield samples.damaged_table(random, random.randint(2, 5), kind)[:size * random.randint(1, MOST)]
    for place in range(MOST):  # the one broken term of a full table
        terms = [samples.term(random, kind) for _ in range(MOST)]
        terms[place] = samples.broken_term(random, kind)
        yield table_of(kind, terms)
    for _ in range(RAGGED):  # a length that is no multiple of a term's, behind terms that are broken or not
        yield samples.damaged_table(random, random.randint(0, 2), kind)[:-random.randint(1, size - 1)]


def twelves(random):
    """Every bit of a sound term turned round, and terms of the old form."""
    for _ in range(8):
        piece = packed(TWELVE, samples.term(random, TWELVE))
        yield from (bytes(a ^ b for a, b in zip(piece, (1 << bit).to_bytes(12, "big"))) for bit in range(96))
    for _ in range(SOUND // 5):
        terms = [samples.term(random) for _ in range(random.randint(1, 8))]
        yield table_of(TWELVE, terms)
        yield table_of(TWELVE, (new_only(random, term) for term in terms))


def records():
    for kind in KINDS.values():
        yield from (record(kind.number, table) for table in tables(Random(105 + kind.number - 38), kind))
    yield from (record(TWELVE.number, table) for table in twelves(Random(115)))


def answer(reader):
    kind, table = KINDS[reader.word()], reader.table()
    broken = table_refusal(kind, table)
    return list(broken) if broken else [0, 0] + [field for term in terms_of(kind, table) for field in term[:6]]


def runs():
    """Each number for each kind, and each place of a term that is broken."""
    made = list(records())
    run = run_of(made, answer)
    numbers, places = Counter(), {number: set() for number in KINDS}
    for one, line in zip(made, run.lines):
        kind, (number, place) = int.from_bytes(one[:8], "big"), (int(word, 16) for word in line.split(" ", 2)[:2])
        numbers[kind, number] += 1
        places[kind].add(place)
    assert set(numbers) == {(kind, number) for kind in KINDS for number in range(3)}, numbers
    assert all(sum(numbers[kind, n] for n in range(3)) >= 5000 and min(numbers[kind, n] for n in range(3)) >= 500
               and places[kind] == set(range(MOST + 1)) for kind in KINDS), (numbers, places)
    yield run
