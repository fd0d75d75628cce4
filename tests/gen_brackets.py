"""Brackets through each operation, 2,000 each at each width (fields as in stream.py).  Assumes the seed below.

Record, 15 words: width, operation (0 sum, 1 difference, 2 product, 3 quotient, 4 power), n, a (6), b (6).
n is the power's exponent, from 0 to 63, and else 0; a power's b is 0.  A quotient's b has a lower end above zero.
Line, 6 words: the bracket of the result.
Exponents lie between -36,000 and 36,000, for powers between -300 and 300.
"""

from operator import add, mul, sub, truediv
from random import Random

from second.bracket import power
from second.tests import samples
from second.verdict import WIDTHS
from stream import record, run_of, words_of_bracket

OPERATIONS = (add, sub, mul, truediv)
EACH = 2000


def any_bracket(random, bits, positive=False):
    if random.randrange(4) == 0:
        return samples.narrow(random, bits)
    return samples.bracket(random, bits, reach=random.choice([3, 40, 9000, 36000]), positive=positive)


def of_one_width(random, bits):
    """One record of each operation."""
    for operation in range(4):
        a, b = any_bracket(random, bits), any_bracket(random, bits, positive=operation == 3)
        yield record(bits, operation, 0, words_of_bracket(a), words_of_bracket(b))
    base = random.choice([samples.narrow(random, bits, low=-19, high=2), samples.bracket(random, bits, reach=260)])
    n = random.choice([random.randint(0, 24), random.randint(0, 63)])
    yield record(bits, 4, n, words_of_bracket(base), [0] * 6)


def records():
    random = Random(103)
    for _ in range(EACH):
        for bits in WIDTHS:
            yield from of_one_width(random, bits)


def answer(reader):
    bits, operation, n = reader.word(), reader.word(), reader.word()
    a, b = reader.bracket(bits), reader.bracket(bits)
    return words_of_bracket(power(a, n) if operation == 4 else OPERATIONS[operation](a, b))


def runs():
    yield run_of(records(), answer)
