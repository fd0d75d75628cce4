"""Random odd tables of either kind, and pairs for them that get as far as 21 and behind it (02 f).  Assumes a seeded
random.Random.

The tables are data/odd.txt with every coefficient a little off: sound, and with pressures below zero over much of the
range.  Most pairs have nearly equal pressures, found in floats: they are proposals only, and nothing rests on them.
"""

import rough_search
from gen_pairs import near_322
from second import f64
from second.equation import phase
from second.kind import KINDS, NINE
from second.logarithm import logarithm_of_ratio
from second.term import table_of, terms_of
from second.tests import samples
from second.verdict import balance

W = f64.word


def table(random, kind=NINE):
    return table_of(kind, (term._replace(magnitude=round(term.magnitude * random.uniform(0.99, 1.01)))
                           for term in terms_of(NINE, samples.odd_table())))


def liquid_for(kind, table, vapour):
    """The liquid with the vapour's pressure, by halving where pressure only rises; T does not matter, for t is 0."""
    rows = rough_search.rows_of(kind, table)

    def pressure(rho):
        return rho * (1 + rough_search.sums(300, rho, rows)[1])

    low, high = 450.0, 600.0
    for _ in range(60):
        middle = (low + high) / 2
        low, high = (middle, high) if pressure(middle) < pressure(vapour) else (low, middle)
    return low


def densities(random, kind, table):
    """Liquid and vapour of nearly equal pressure, or both close to 322.  From about 68 on vapours lie below zero; those
    from about 30 to 180 do not push back when squeezed."""
    low, high = random.choice([(1, 30), (30, 68), (30, 68), (60, 180), (180, 320), (180, 320)])
    vapour = random.uniform(low, high)
    liquid = liquid_for(kind, table, vapour) + random.choice([0, 0, 1e-4, -1e-2, 1, 20])
    return random.choice([[W(liquid), W(vapour)], [W(liquid), W(vapour)], [W(liquid), W(vapour)], near_322(random)])


def tolerances(random):
    wide = [W(1e6)] * 4
    return [random.choice([0, W(1e3)] + wide), random.choice([0, W(1.0)] + wide)]


def proposal(random, table, kind=NINE):
    return [samples.between(random, 273.16, 600)] + densities(random, kind, table) + tolerances(random)


def behind(width, kind, table, T, liquid, vapour, pressure_tolerance, gibbs_tolerance):
    """The number that a pair would get if 21 were not asked.  Assumes that no check before it fails."""
    T, liquid, vapour = map(f64.exact, (T, liquid, vapour))
    heavy, light = (phase(width, terms_of(KINDS[kind], table), T, rho) for rho in (liquid, vapour))
    ln_q = logarithm_of_ratio(width, liquid, vapour)
    return balance(heavy, light, ln_q, pressure_tolerance, gibbs_tolerance).number
