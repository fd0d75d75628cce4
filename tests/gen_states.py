"""States over the whole accepted range, 500 at each width for each kind of table, and 60 at each width whose exponential
is cut off and still counts (fields as in stream.py).  Assumes the seeds below.

Record: width, kind, a sound table of that kind, T, density.
Line, 4 words: pressure's two ends and stiffness' two ends, as f64s; pressures over the ceiling too.
"""

import struct
from random import Random

import cut_off
from second import f64
from second.equation import phase, pressure, stiffness
from second.kind import KINDS, NINE
from second.term import terms_of
from second.tests import samples
from second.verdict import WIDTHS
from stream import record, run_of

COUNT = 500
CUT = 60


def corners(kind):
    (coldest, hottest), (thinnest, densest) = samples.ends_of(kind.temperatures), samples.ends_of(kind.densities)
    return [(f64.word(T), f64.word(rho)) for T in (coldest, hottest, 647.14) for rho in (thinnest, 322.0, densest)]


def a_table(random, i, kind):
    """The paper's table, then random ones of one to 64 terms, in turn."""
    if i % 2 == 0:
        return samples.water(kind)
    most = random.choice([1, 2, 8, 64] if kind == NINE else [1, 2, 4, 8, 8, 64])
    return samples.sound_table(random, most, random.choice([samples.term, samples.gentle_term]), kind)


def state(random, i, kind):
    """T and density: the corners first; for the longer record some near its greatest density."""
    first = corners(kind)
    if i < len(first):
        return first[i]
    rho = samples.density(random, kind)
    if kind != NINE and random.randrange(4) == 0:
        rho = samples.between(random, 644, 2576)
    return samples.temperature(random, kind), rho


def records():
    for kind, random in ((kind, Random(106 + kind.number - 38)) for kind in KINDS.values()):
        for i in range(COUNT):
            for bits in WIDTHS:
                yield record(bits, kind.number, a_table(random, i, kind), *state(random, i // 2, kind))


def cut_records():
    random = Random(119)
    for bits in WIDTHS:
        yield from (record(bits, 58, *state) for state in cut_off.states(random, bits, CUT))


def ends(*brackets):
    return [f64.of_sheet(end) for b in brackets for end in (b.lower, b.upper)]


def answer(reader):
    bits, kind = reader.word(), KINDS[reader.word()]
    terms, T, rho = terms_of(kind, reader.table()), f64.exact(reader.word()), f64.exact(reader.word())
    found = phase(bits, terms, T, rho)
    return ends(pressure(found), stiffness(found))


def runs():
    """Where an exponential is cut off and counts, the pressure's ends lie apart by more than a part in a million."""
    yield run_of(records(), answer)
    run = run_of(cut_records(), answer)
    for line in run.lines:
        low, high = (struct.unpack(">d", bytes.fromhex(word))[0] for word in line.split()[:2])
        assert high - low > 1e-6 * max(abs(low), abs(high)), line
    yield run
