"""Sound tables whose exponentials come again, and tables with as many different ones as there can be (02 e).  Assumes a
seeded random.Random.

An exponential belongs to c and the factor together.  An engine that keeps it for less, that keeps too few or for too
long, gives another answer for one of these.
"""

from second.kind import MOST, NINE, TWELVE
from second.term import old_factor, table_of
from second.tests import samples


def few(random, kind):
    """Two or more c with their factors: one c with several factors, one factor with several c, both, pairs that are
    alike in their lower bits; at times without c as well."""
    if kind == NINE:
        return [(c, old_factor(c)) for c in random.sample(range(4), random.randint(2, 4))]
    c, factor = random.randint(1, 6), random.choice([40, 100, 200, random.randint(1, 300)])
    factors = [(c, n) for n in random.sample([1, 40, 99, 100, 101, 200, 1023], 3)]
    powers = [(n, factor) for n in random.sample(range(1, 7), 3)]
    alike = [(c, factor), (c + 8, factor), (c, factor + 256), (c, factor + 512)]
    return random.choice([factors[:2], factors, powers, factors + powers, alike]) + random.choice([[], [(0, 0)]])


def in_turn(random, pairs, count):
    """So many of them: one after the other, each several times in a row, in any order, or the first at both ends."""
    turns = [pairs[i % len(pairs)] for i in range(count)]
    between = random.choices(pairs[1:], k=count - 2)
    return random.choice([turns, sorted(turns), random.sample(turns, count), [pairs[0], *between, pairs[0]]])


def term(random, kind):
    """Large enough that its exponential is seen in the pressure, and mostly under the ceiling."""
    return samples.gentle_term(random, kind)._replace(magnitude=random.randint(10 ** 12, 10 ** 14))


def table(random, kind):
    """Terms with a few exponentials in turn.  Their other fields are any, all the same, or those of two terms."""
    count = random.choice([2, 3, 4, 7, 12, random.randint(2, MOST)])
    terms = [term(random, kind) for _ in range(random.choice([1, 2, count]))]
    return table_of(kind, (terms[i % len(terms)]._replace(c=c, factor=factor)
                           for i, (c, factor) in enumerate(in_turn(random, few(random, kind), count))))


def full_table(random, times):
    """A full table of the longer record, in which each exponential comes so many times."""
    every = [(c, factor) for c in range(1, 16) for factor in range(1, 300)]
    return table_of(TWELVE, (term(random, TWELVE)._replace(c=c, factor=factor)
                             for c, factor in times * random.sample(every, MOST // times)))
