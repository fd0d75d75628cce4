"""Exact numbers as triples (p, q, e) meaning p/q times 2^e, and their order.  Assumes q above zero."""

from fractions import Fraction


def at_most(x, y):
    """Whether x <= y, by cross-multiplied whole numbers."""
    (p, q, e), (r, s, f) = x, y
    left, right = p * s, r * q
    if e >= f:
        return left << (e - f) <= right
    return left <= right << (f - e)


def below(x, y):
    return not at_most(y, x)


def least(numbers):
    found = numbers[0]
    for x in numbers[1:]:
        if at_most(x, found):
            found = x
    return found


def greatest(numbers):
    found = numbers[0]
    for x in numbers[1:]:
        if at_most(found, x):
            found = x
    return found


def negated(x):
    p, q, e = x
    return (-p, q, e)


def fraction(x):
    """The same number as a Fraction, for the equation itself and for tests."""
    p, q, e = x
    return Fraction(p << e, q) if e >= 0 else Fraction(p, q << -e)
