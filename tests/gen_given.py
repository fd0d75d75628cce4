"""Numbers on their way in and out of sheet numbers, 1,500 a kind at each width (fields as in stream.py).

Record, 8 words: width, kind, then six words, those not named being 0.
  0  a fraction: sign (1 for negative), numerator from 1 to 2^64 - 1, divisor from 1 to 2^63
                                                                       line: its bracket, 6 words
  1  a finite f64: bits                                                line: its bracket, 6 words
  2  a whole number from 0 to 2^32 - 1                                 line: its bracket, 6 words
  3  a sheet number (3) that is exactly an f64, subnormals among them  line: the f64's bits, 1 word
  4  two sheet numbers (3 and 3)                                       line: 1 if a <= b, else 0
Assumes the seed below.
"""

from random import Random

from second import f64
from second.bracket import given
from second.exact import at_most
from second.sheet import ZERO, exact
from second.tests import samples
from second.verdict import WIDTHS
from stream import Reader, record, run_of, words_of, words_of_bracket

EACH = 1500
GREATEST_NUMERATOR, GREATEST_DIVISOR = 2 ** 64 - 1, 2 ** 63
DECIMALS = [(64714, 100), (46151805, 100000), (1, 3), (1, 10), (322, 1), (10 ** 17, 10 ** 16), (1, 10 ** 16), (40, 100),
            (100, 100), (1, 100), (1023, 100)]


def large(random, greatest):
    """Any size, the greatest, and powers of two with their neighbours."""
    power = 1 << random.randint(0, greatest.bit_length() - 1)
    n = random.choice([random.randint(1, greatest), random.randint(1, power), greatest, greatest - 1, power - 1, power,
                       power + 1])
    return min(max(n, 1), greatest)


def next_to_a_sheet_number(random, bits):
    """A divisor, and a numerator that is a sheet number times it, or one off: nothing is cut, or next to nothing."""
    q = random.getrandbits(random.randint(1, 62 - bits)) | 1
    m = random.choice([random.getrandbits(bits), 2 ** bits - 1, 2 ** bits - 2]) | 1 << (bits - 1)
    return q * m + random.choice([0, 1, -1, q - 1]), q << random.randint(0, 63 - q.bit_length())


def fraction(random, bits):
    p, q = random.choice([(samples.coefficient(random), 10 ** 16), random.choice(DECIMALS),
                          (samples.coefficient(random), samples.coefficient(random)),
                          (large(random, GREATEST_NUMERATOR), large(random, GREATEST_DIVISOR)),
                          next_to_a_sheet_number(random, bits)])
    return [random.randrange(2), p, q]


def finite(random):
    word = random.choice([samples.odd_f64, samples.temperature, samples.density, lambda r: r.getrandbits(52)])(random)
    return word if f64.exact(word) is not None else 0


def fits_f64(random, bits):
    if random.randrange(3):
        return random.choice([samples.sheet(random, bits, reach=960), samples.sheet(random, bits, reach=60), ZERO])
    digits = random.randint(1, bits)  # a subnormal, mostly: this many digits, the last at 2^-1074 or above
    m = random.getrandbits(digits) | 1 << (digits - 1)
    return (random.choice([m, -m]) << (bits - digits), random.randint(-1074, -1060) - (bits - digits))


def fields(random, bits):
    """What follows the kind, for each kind."""
    a = random.choice([samples.sheet(random, bits, reach=random.choice([20, 20000, 80000])), ZERO])
    near = random.choice([samples.sheet_near(random, bits, a), ZERO])
    return (fraction(random, bits), [finite(random)], [random.getrandbits(random.randint(0, 32))],
            words_of(bits, fits_f64(random, bits)), words_of(bits, a) + words_of(bits, near))


def records():
    random = Random(102)
    for _ in range(EACH):
        for bits in WIDTHS:
            for kind, words in enumerate(fields(random, bits)):
                yield record(bits, kind, words + [0] * (6 - len(words)))


def answer(reader):
    bits, kind, words = reader.word(), reader.word(), Reader(reader.take(48))
    if kind == 0:
        negative, p, q = words.word(), words.word(), words.word()
        return words_of_bracket(given(bits, -p if negative else p, q))
    if kind == 1:
        return words_of_bracket(given(bits, *f64.exact(words.word())))
    if kind == 2:
        return words_of_bracket(given(bits, words.word()))
    if kind == 3:
        return [f64.of_sheet(words.sheet())]
    return [int(at_most(exact(words.sheet()), exact(words.sheet())))]


def runs():
    yield run_of(records(), answer)
