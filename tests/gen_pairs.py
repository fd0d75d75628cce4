"""Pairs of densities over the whole accepted range, 200 at each width for each kind of table (fields as in stream.py).
Assumes the seeds below.

Record: width, kind, a sound table of that kind, T, liquid, vapour, with liquid above 322 above vapour.
Line, 12 words, each two the ends of a bracket as f64s: liquid's pressure, vapour's pressure, liquid's less
vapour's, Gibbs gap, liquid's stiffness, vapour's stiffness.
"""

from random import Random

from gen_states import a_table, ends
from second import f64
from second.equation import gibbs_gap, phase, pressure, stiffness
from second.kind import KINDS, NINE
from second.logarithm import logarithm_of_ratio
from second.term import terms_of
from second.tests import samples
from second.verdict import WIDTHS
from stream import record, run_of

COUNT = 200
DIVIDE = f64.word(322.0)


def liquid(random, kind=NINE):
    densest = samples.ends_of(kind.densities)[1]
    return random.choice([samples.between(random, 322.01, densest), samples.above(DIVIDE), f64.word(densest),
                          f64.word(644.0)])


def vapour(random):
    return random.choice([f64.word(2.0 ** random.uniform(-10, 8.33)), samples.between(random, 0.001, 321.99),
                          samples.under(DIVIDE), f64.word(2.0 ** -10), f64.word(161.0)])


def near_322(random):
    """Liquid and vapour so close that their gaps are small for almost any table."""
    near = 10.0 ** random.uniform(-9, 0)
    return [f64.word(322.0 + near), f64.word(322.0 - near * random.uniform(0.1, 2))]


def records():
    for kind, random in ((kind, Random(107 + kind.number - 38)) for kind in KINDS.values()):
        for i in range(COUNT):
            for bits in WIDTHS:
                yield record(bits, kind.number, a_table(random, i, kind), samples.temperature(random, kind),
                             liquid(random, kind), vapour(random))


def answer(reader):
    bits, kind = reader.word(), KINDS[reader.word()]
    terms = terms_of(kind, reader.table())
    T, heavy, light = (f64.exact(reader.word()) for _ in range(3))
    ln_q = logarithm_of_ratio(bits, heavy, light)
    heavy, light = phase(bits, terms, T, heavy), phase(bits, terms, T, light)
    return ends(pressure(heavy), pressure(light), pressure(heavy) - pressure(light),
                gibbs_gap(heavy, light, ln_q), stiffness(heavy), stiffness(light))


def runs():
    yield run_of(records(), answer)
