"""Single operations on sheet numbers, 24,000 at each width (fields as in stream.py).  Assumes the seed below.

Record, 9 words: width, operation (0 sum, 1 difference, 2 product, 3 quotient), direction (0 down, 1 up), a (3), b (3).
Line, 3 words: the down or up of the exact result, as a sheet number.
Exponents of a and b lie between -80,000 and 80,000; a quotient's b is above zero.
"""

from random import Random

import edges
from second.sheet import ZERO, down, exact_difference, exact_product, exact_quotient, exact_sum, up
from second.tests import samples
from second.verdict import WIDTHS
from stream import record, run_of, words_of

OPERATIONS = (exact_sum, exact_difference, exact_product, exact_quotient)
EACH = 3000  # of each operation in each direction at each width


def operands(random, bits, operation):
    """Far apart, near, next to cancelling, short ones whose results are exact, the operation's edges, and zeros."""
    a = samples.sheet(random, bits, reach=random.choice([20, 300, 19900, 79900]))
    kind = random.randrange(15)
    if kind < 5:
        return a, samples.sheet_near(random, bits, a)
    if kind < 7:
        return a, samples.sheet(random, bits, reach=random.choice([20000, 80000]))
    if kind < 9:
        return samples.sheet(random, bits, reach=60), samples.sheet(random, bits, reach=60)
    if kind < 14:
        return edges.operands(random, bits, operation)
    return random.choice([(a, ZERO), (ZERO, a), (ZERO, ZERO)])


def positive(random, bits, b):
    m, e = b
    return (abs(m), e) if m else samples.sheet(random, bits, reach=300, positive=True)


def records():
    random = Random(101)
    for _ in range(EACH):
        for operation in range(4):
            for direction in range(2):
                for bits in WIDTHS:
                    a, b = operands(random, bits, operation)
                    if operation == 3:
                        b = positive(random, bits, b)
                    yield record(bits, operation, direction, words_of(bits, a), words_of(bits, b))


def answer(reader):
    bits, operation, direction = reader.word(), reader.word(), reader.word()
    result = OPERATIONS[operation](reader.sheet(), reader.sheet())
    return words_of(bits, (up if direction else down)(bits, *result))


def runs():
    yield run_of(records(), answer)
