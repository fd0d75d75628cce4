"""Sheet numbers of any count of bits, with down and up (01, "Sheet numbers and brackets").  Assumes bits >= 1.

A sheet number is the pair (m, e) meaning m times 2^e, where |m| has exactly `bits` bits; zero is (0, 0).
"""

ZERO = (0, 0)


def down(bits, p, q=1, e=0):
    """The greatest sheet number that is not above p/q times 2^e, for q above zero."""
    if q != 1:
        # more digits of the quotient than a sheet number has, cut downward: no sheet number is passed over
        shift = max(0, bits + 1 + q.bit_length() - p.bit_length())
        p, e = (p << shift) // q, e - shift
    if p == 0:
        return ZERO
    cut = p.bit_length() - bits
    if cut <= 0:
        return (p << -cut, e + cut)
    m = p >> cut  # this shift goes down the number line for either sign
    if m.bit_length() > bits:  # m became -2^bits
        return (m >> 1, e + cut + 1)
    return (m, e + cut)


def up(bits, p, q=1, e=0):
    """The least sheet number that is not below: down, seen in the mirror at zero."""
    m, e = down(bits, -p, q, e)
    return (-m, e)


def negated(s):
    m, e = s
    return (-m, e)


def exact(s):
    m, e = s
    return (m, 1, e)


# The exact results of the four operations on two sheet numbers, as triples of exact.py.

def exact_sum(a, b):
    (m, e), (n, f) = a, b
    if e >= f:
        return ((m << (e - f)) + n, 1, f)
    return (m + (n << (f - e)), 1, e)


def exact_difference(a, b):
    return exact_sum(a, negated(b))


def exact_product(a, b):
    (m, e), (n, f) = a, b
    return (m * n, 1, e + f)


def exact_quotient(a, b):
    """Assumes b above zero, as every divisor of 01 is."""
    (m, e), (n, f) = a, b
    return (m, n, e - f)
