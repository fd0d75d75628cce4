"""Runs of the bench program with 2,000 and more proposals at each width for nine-byte tables, and 700 and more for
twelve-byte ones.  Assumes the seeds below.

At each width and for each kind every number from 0 to 12 occurs but 5, which no pair check gives (gen_calls.py has it),
and so does 21.  Some runs name 32, or 32 and 38, by their words, the others of that width and kind have no word; words
that name no width give 19 and 12, those that name a width and no kind 29 and 12.

A run is the program's words, the file terms.bin (or none) and a standard input as 01 gives them: five f64 a proposal,
most significant byte first: T, liquid, vapour, pressure tolerance, Gibbs tolerance.  The lines are the bench program's
own.
The rough search is in floats, so the last digits of some proposals may differ between machines; both sides read
the same ones.
"""

import struct
from collections import Counter, defaultdict
from itertools import chain
from random import Random
from typing import NamedTuple

import odd_pairs
import rough_search
from gen_pairs import liquid, near_322, vapour
from second import f64
from second.bench import NO_KIND, NO_WIDTH, kind_of, lines, width_of
from second.equation import gibbs_gap, phase, pressure
from second.exact import greatest
from second.kind import KINDS, NINE
from second.logarithm import logarithm_of_ratio
from second.sheet import exact, negated
from second.term import table_of, terms_of
from second.tests import samples
from second.tests.test_kinds import CEILINGS_58
from second.tests.test_verdicts import CEILINGS
from second.verdict import WIDTHS
from stream import Run

W = f64.word
WIDE = W(1e6)
PLUGS = {38: "proposals.bin", 58: "proposals58.bin"}


class Share(NamedTuple):
    """How much of everything there is."""
    saturation: int
    edges: int
    tables: int
    damaged: int
    odd: int
    pulled: int
    least: int  # proposals in all


SHARES = {38: Share(360, 80, 120, 50, 400, 80, 2000), 58: Share(60, 16, 60, 25, 150, 40, 700)}
NO_WIDTHS = ("0", "31", "33", "52", "54", "4294967328", "18446744073709551615", "18446744073709551648", "032", "+32",
             "-32", "32 ", " 53", "3 2", "53.0", "", "x", "5", "3", "533", "5353", "3" * 300, "\uff15\uff13", "\udcff")
NO_KINDS = ("0", "37", "39", "57", "59", "60", "580", "32", "53", "4294967334", "18446744073709551674", "038", "+58",
            "-38", "58 ", " 38", "5 8", "38.0", "", "x", "5", "3858", "8" * 300, "\uff13\uff18", "\udcff")


def along_the_line(count, kind):
    """T with the rough search's pair, from 273.16 K to 647 K."""
    for i in range(count):
        T = 273.16 + (647 - 273.16) * i / (count - 1)
        found = rough_search.pair(T, kind)
        if found and found[1] >= 2.0 ** -10:
            yield [W(T), W(found[0]), W(found[1])]


def saturation(kind):
    """One pair after the other, with tolerances in turn that are generous, workable at 32 bits, at 53, and hopeless."""
    tolerances = [(1e5, 100.0), (2000.0, 1.0), (100.0, 100.0), (0.01, 1e-4), (1e6, 1e-3), (0.0, 0.0)]
    for i, state in enumerate(along_the_line(SHARES[kind].saturation, kind)):
        yield state + [W(x) for x in tolerances[i % len(tolerances)]]


def cold(kind):
    """The search's pairs about the triple point, and one f64 below each T: at the f64 273.16 alone is one accepted, by
    Table 4 with the second tolerances and at 53 bits."""
    for T in (273.0, 273.05, 273.15, 273.16):
        pair = [W(x) for x in rough_search.pair(T, kind)]
        for word in (samples.under(W(T)), W(T)):
            yield [word] + pair + [W(1e4), W(10.0)]
            yield [word] + pair + [W(1e4), W(1e5)]


def smallest_tolerance(gap):
    """The least tolerance that a gap passes with: its larger end by size, which is an f64."""
    size = greatest([exact(gap.upper), exact(negated(gap.lower))])
    return f64.of_sheet((size[0], size[2]))


def nudged(random, word):
    """A density a little off, by a part in 10^4 to 10^12."""
    rho = struct.unpack(">d", struct.pack(">Q", word))[0]
    return W(rho * (1 + random.choice([1, -1]) * 10.0 ** random.uniform(-12, -4)))


def edges(random, width, kind):
    """Found and perturbed pairs with tolerances that just pass and, one f64 less, just do not."""
    terms = terms_of(KINDS[kind], samples.water(KINDS[kind]))
    for T, heavy, light in along_the_line(SHARES[kind].edges, kind):
        for proposal in ([T, heavy, light], [T, nudged(random, heavy), light]):
            a, b, c = map(f64.exact, proposal)
            one, two = phase(width, terms, a, b), phase(width, terms, a, c)
            p = smallest_tolerance(pressure(one) - pressure(two))
            g = smallest_tolerance(gibbs_gap(one, two, logarithm_of_ratio(width, b, c)))
            yield from (proposal + pair for pair in ([p, g], [samples.under(p), g], [p, samples.under(g)]))


def close(random):
    return [samples.pair_temperature(random)] + near_322(random) + [WIDE, WIDE]


def anywhere(random, kind=NINE):
    return [samples.pair_temperature(random), liquid(random, kind), vapour(random), random.choice([0, WIDE, W(1e3)]),
            WIDE]


def odd(random, proposal):
    """A proposal with one or two fields that are hardly ever right."""
    for _ in range(random.choice([1, 1, 2])):
        proposal[random.randrange(5)] = samples.odd_f64(random)
    return proposal


def run(words, table, proposals, tail=b""):
    """A run whose expected lines are the second program's."""
    stdin = b"".join(struct.pack(">5Q", *proposal) for proposal in proposals) + tail
    expected = list(lines(width_of(words), kind_of(words), table or b"", stdin))
    return Run({} if table is None else {"terms.bin": table}, stdin, expected, words)


def number_of(line):
    return int(line.split()[1])


def pulled(random, words):
    """Random odd tables (02 f): 21 occurs, and 0, 9, 10 and 11 do, both answered and hidden behind 21."""
    width, kind, answered, hidden = width_of(words), kind_of(words), Counter(), Counter()
    for _ in range(SHARES[kind].pulled):
        table = odd_pairs.table(random, KINDS[kind])
        proposals = [odd_pairs.proposal(random, table, KINDS[kind]) for _ in range(5)]
        one = run(words, table, proposals)
        numbers = list(map(number_of, one.lines))
        answered.update(numbers)
        hidden.update(odd_pairs.behind(width, kind, table, *p) for p, number in zip(proposals, numbers) if number == 21)
        yield one
    assert answered[21] >= 50 and all(min(answered[n], hidden[n]) >= 5 for n in (0, 9, 10, 11)), (answered, hidden)


def by_water(random, words):
    """The paper's table: the plugs, and pairs along the line and at the edges of tolerances and ranges."""
    kind = kind_of(words)
    water = samples.water(KINDS[kind])
    yield run(words, water, [], samples.data(PLUGS[kind]))
    yield run(words, water, saturation(kind))
    yield run(words, water, cold(kind))
    yield run(words, water, edges(random, width_of(words), kind))
    yield run(words, water, [odd(random, anywhere(random, KINDS[kind])) for _ in range(SHARES[kind].odd)])


def by_other_tables(random, words):
    """Random tables, sound and damaged, the odd table, and those at the ceiling."""
    kind, share = KINDS[kind_of(words)], SHARES[kind_of(words)]
    for _ in range(share.tables):
        make = random.choice([samples.term, samples.gentle_term])
        table = samples.sound_table(random, random.choice([1, 3, 12, 64]), make, kind)
        yield run(words, table, [close(random), close(random), close(random), anywhere(random, kind),
                                 anywhere(random, kind)])
    for _ in range(share.damaged):
        table = samples.damaged_table(random, random.randint(1, 4), kind)
        yield run(words, table, [anywhere(random, kind), odd(random, anywhere(random, kind)), close(random)])
    yield run(words, table_of(kind, terms_of(NINE, samples.odd_table())), [], samples.data("odd_proposals.bin"))
    for ceiling in (CEILINGS if kind == NINE else CEILINGS_58).values():
        for table in ceiling.tables():
            yield run(words, table, [[ceiling.T, ceiling.rho, W(1.0), WIDE, WIDE]])


def by_bytes(random, words):
    """No table and tables of a wrong length; proposals cut at every byte, after none, one or two whole ones."""
    kind = KINDS[kind_of(words)]
    water, size = samples.water(kind), kind.size
    for table in (None, b"", water[:-1], water + b"\0", water[:size] * 65, water[:size] * 64 + b"\0", bytes(10),
                  bytes(1000), bytes(100000)):
        yield run(words, table, [anywhere(random), odd(random, anywhere(random))], random.choice([b"", b"\1"]))
    for length in range(40):
        tail = random.getrandbits(320).to_bytes(40, "big")[:length]
        table = random.choice([water, None, bytes(size)])
        yield run(words, table, [odd(random, anywhere(random)) for _ in range(length % 3)], tail)


def all_runs(words):
    """All that is run at one width for one kind."""
    seed = width_of(words) * kind_of(words)
    random = Random(109 * seed)
    yield from by_water(random, words)
    yield from by_other_tables(random, words)
    yield from by_bytes(random, words)
    yield from pulled(Random(110 * seed), words)


def by_words():
    """The words 32 and 38, words that name no width or no kind, and words behind the second."""
    random, water = Random(113), samples.table5()
    yield run(("32",), water, [], samples.sterilisers())
    yield run(("32", "38"), water, [], samples.sterilisers())
    yield run(("53", "38"), water, [], samples.sterilisers())
    yield from by_bytes(random, ("32",))
    for word in NO_WIDTHS:
        for words, table in (((word,), water), ((word,), None), ((word, "58"), samples.table4())):
            yield run(words, table, [], samples.sterilisers()[:80] + bytes(random.randrange(40)))
    for word in NO_KINDS:
        for words, table in ((("32", word), water), (("53", word), None), (("53", word, "58"), samples.table4())):
            yield run(words, table, [], samples.sterilisers()[:80] + bytes(random.randrange(40)))
    for words in (("53", "38", "x"), ("32", "38", "58"), ("53", "58", "38"), ("x", "32"), ("", "53"), ("x", "y"),
                  ("38", "32"), ("58", "53"), ("38",), ("58",)):
        yield run(words, water, [], samples.sterilisers())
        yield run(words, samples.table4(), [], samples.data(PLUGS[58]))


def named(words):
    """Width and kind; no kind without a width, where it is not looked at."""
    width = width_of(words)
    return width, kind_of(words) if width != NO_WIDTH else NO_KIND


def runs():
    count, numbers = Counter(), defaultdict(set)
    each = (all_runs(words) for words in ((), ("53",), ("32", "58"), ("53", "58")))
    for one in chain(*each, by_words()):
        count[named(one.words)] += len(one.lines)
        numbers[named(one.words)].update(map(number_of, one.lines))
        yield one
    for width in WIDTHS:
        for kind, share in SHARES.items():
            assert count[width, kind] >= share.least, count
            assert numbers[width, kind] == set(range(13)) - {5} | {21}, numbers
        assert numbers[width, NO_KIND] == {12, 29}, numbers
    assert numbers[NO_WIDTH, NO_KIND] == {12, 19}, numbers
