"""States of the longer record whose exponential is cut off and still counts (02 h).  Assumes a seeded random.Random.

With g at 128 the exponential is below 2^-184, and most terms vanish in their sum.  Here d, t and the coefficient are near
the greatest, the density too, and T near the least, so that the term is seen in the pressure.  Of half of the states g's
bracket reaches over 128: its lower end is the smaller one.
"""

from second import f64
from second.bracket import given
from second.equation import exponent
from second.exact import below
from second.exponential import GREATEST
from second.kind import TWELVE
from second.sheet import exact
from second.term import Term, packed, table_of
from second.tests import samples


def delta_of(bits, rho):
    return given(bits, *f64.exact(rho)) / 322


def is_cut_off(bits, term, rho):
    return term.c != 0 and below(GREATEST, exact(exponent(term, delta_of(bits, rho)).upper))


def reaches_over(bits, term, rho):
    """Whether g's bracket has 128 inside."""
    return is_cut_off(bits, term, rho) and below(exact(exponent(term, delta_of(bits, rho)).lower), GREATEST)


def large_term(random):
    """A term, and the delta at which its g is 128, which lies a little below 8."""
    while True:
        c, factor = random.randint(2, 6), random.randint(1, 1023)
        delta = (12800 / factor) ** (1 / c)
        if 6.5 <= delta <= 7.95:
            return Term(c, factor, random.randint(29, 31), random.randint(60, 63), random.randrange(2),
                        random.randint(5 * 10 ** 16, 10 ** 17)), delta


def state(random, bits, over):
    """A table, T and density; with 128 inside of g's bracket if `over`, else with g above."""
    while True:
        term, delta = large_term(random)
        middle = f64.word(322 * delta)
        words = range(middle - 6, middle + 7) if over else [samples.between(random, 322 * delta + 0.5, 2576)]
        for rho in words:
            if (reaches_over if over else is_cut_off)(bits, term, rho):
                more = [samples.gentle_term(random, TWELVE) for _ in range(random.randrange(2))]
                return packed(TWELVE, term) + table_of(TWELVE, more), samples.between(random, 252, 260), rho


def states(random, bits, count):
    return (state(random, bits, i % 2 == 0) for i in range(count))
