"""Pairs of sheet numbers at the edges of each operation, at any count of bits.  Assumes a seeded random.Random.

Only the significands matter here; the exponents are small and random.
"""

FAR = 60  # exponents, either way


def significand(random, bits):
    return random.getrandbits(bits) | 1 << (bits - 1)


def odd(random, bits):
    return significand(random, bits) | 1


def placed(random, m, n):
    """Both with a random sign and exponent."""
    return ((random.choice([m, -m]), random.randint(-FAR, FAR)), (random.choice([n, -n]), random.randint(-FAR, FAR)))


# products

def low_digits(random, bits):
    """The product's lower half is 1, or all ones: what is cut lies only in its lowest digit, or in every one."""
    m = odd(random, bits)
    cut = 1 << (bits - 1)
    rest = pow(m, -1, cut)
    return m, cut | random.choice([rest, cut - rest])


def low_zeros(random, bits):
    """The product's lower half is zero, perhaps but for its highest digit: nothing is cut, or one digit."""
    zeros = random.randint(1, bits - 1)
    others = bits - zeros - random.randrange(2)
    return odd(random, bits - zeros) << zeros, odd(random, bits - others) << others


def under_a_power(random, bits):
    """The product lies just below a power of two, mostly past the greatest significand."""
    m = significand(random, bits)
    return m, ((1 << (2 * bits - 1)) - 1) // m


def greatest(random, bits):
    most = (1 << bits) - 1
    return most - random.randrange(3), random.choice([most, most - 1, 1 << (bits - 1), (1 << (bits - 1)) + 1])


# quotients

def no_rest(random, bits):
    """The quotient is exact, and has few digits or many."""
    digits = random.randint(1, bits)
    n = odd(random, digits)
    m = n * odd(random, max(1, bits - digits))
    return m << (bits - m.bit_length()), n << (bits - digits)


def small_rest(random, bits):
    """With some number of zeros behind the first, the division leaves 1, or one less than the divisor."""
    while True:
        digits = random.choice([bits, bits, random.randint(2, bits)])
        n = odd(random, digits)
        zeros = random.choice([bits - 1, bits - 1, bits, bits, random.randint(1, bits + 2)])
        m = pow(pow(2, zeros, n), -1, n)
        m = random.choice([m, n - m])
        least, most = 1 << (bits - 1), (1 << bits) - 1
        first, last = -(-(least - m) // n), (most - m) // n
        if first <= last:
            return m + n * random.randint(first, last), n << (bits - digits)


def trailing_zeros(random, bits):
    zeros = random.randint(bits // 2, bits - 1)
    return significand(random, bits), odd(random, bits - zeros) << zeros


def neighbours(random, bits):
    """The quotient is next to 1, or next to 2."""
    n = significand(random, bits)
    return random.choice([(n, n), (n ^ 1, n), ((1 << bits) - 1, (1 << (bits - 1)) + random.randrange(3))])


# sums

def cancelling(random, bits):
    """Next to each other, with other signs, about a power of two or anywhere: little remains."""
    m = random.choice([(1 << (bits - 1)) + random.randrange(3), significand(random, bits)])
    n = random.choice([(1 << bits) - 1 - random.randrange(3), significand(random, bits)])
    place = random.randint(-FAR, FAR)
    a, b = random.choice([((m, place + 1), (-n, place)), ((n, place), (-(n ^ 1), place))])
    return random.choice([(a, b), (b, a)])


def carrying(random, bits):
    """The greatest significand, and something small at or below its last place."""
    place, sign = random.randint(-FAR, FAR), random.choice([1, -1])
    small = random.choice([1 << (bits - 1), (1 << (bits - 1)) + 1, significand(random, bits)])
    a = (sign * ((1 << bits) - 1 - random.choice([0, 0, 1])), place)
    b = (random.choice([sign, sign, -sign]) * small, place - bits + random.choice([1, 0, 0, -1, -2, -3, -3 * bits]))
    return random.choice([(a, b), (b, a)])


def of_significands(make):
    return lambda random, bits: placed(random, *make(random, bits))


SUMS = (cancelling, carrying)
PRODUCTS = tuple(map(of_significands, (low_digits, low_zeros, under_a_power, greatest)))
QUOTIENTS = tuple(map(of_significands, (no_rest, small_rest, small_rest, small_rest, trailing_zeros, neighbours)))
OPERATIONS = (SUMS, SUMS, PRODUCTS, QUOTIENTS)  # in the order of the records: sum, difference, product, quotient


def operands(random, bits, operation):
    return random.choice(OPERATIONS[operation])(random, bits)
