"""Brackets, their four operations and their powers (01, "Sheet numbers and brackets").

Assumes that both brackets of an operation have the same count of bits, and a divisor's lower end is above zero.
Operators stand for the rules, so that the equation can be read as 01 prints it.
"""

from functools import lru_cache
from typing import NamedTuple, Tuple

from .exact import greatest, least
from .sheet import down, exact_difference, exact_product, exact_quotient, exact_sum, up


class Bracket(NamedTuple):
    bits: int
    lower: Tuple[int, int]
    upper: Tuple[int, int]

    def __add__(self, other):
        other = like(self, other)
        return rounded(self.bits, exact_sum(self.lower, other.lower), exact_sum(self.upper, other.upper))

    def __sub__(self, other):
        other = like(self, other)
        return rounded(self.bits, exact_difference(self.lower, other.upper),
                       exact_difference(self.upper, other.lower))

    def __mul__(self, other):
        other = like(self, other)
        if self.lower[0] >= 0 and other.lower[0] >= 0:
            return rounded(self.bits, exact_product(self.lower, other.lower), exact_product(self.upper, other.upper))
        return over_ends(exact_product, self, other)

    def __truediv__(self, other):
        other = like(self, other)
        assert other.lower[0] > 0, "a divisor's lower end is above zero"
        if self.lower[0] >= 0:
            return rounded(self.bits, exact_quotient(self.lower, other.upper),
                           exact_quotient(self.upper, other.lower))
        return over_ends(exact_quotient, self, other)

    def __pow__(self, n):
        return power(self, n)

    # a whole number on the left
    def __radd__(self, n):
        return whole(self.bits, n) + self

    def __rsub__(self, n):
        return whole(self.bits, n) - self

    def __rmul__(self, n):
        return whole(self.bits, n) * self

    def __rtruediv__(self, n):
        return whole(self.bits, n) / self


def over_ends(exact_operation, a, b):
    """The rule of all four operations: the least and the greatest exact result over the ends, then down and up once.

    The operators above go straight to the two ends that signs single out; the tests hold them to this rule.
    """
    results = [exact_operation(x, y) for x in a[1:] for y in b[1:]]
    return rounded(a.bits, least(results), greatest(results))


def rounded(bits, low, high):
    return Bracket(bits, down(bits, *low), up(bits, *high))


def given(bits, p, q=1, e=0):
    """The bracket of one exact value: its down and its up."""
    return Bracket(bits, down(bits, p, q, e), up(bits, p, q, e))


@lru_cache(maxsize=None)
def whole(bits, n):
    """A whole number of the rules.  All of them fit 8 bits (but for factors of two), so this is exact from there."""
    return given(bits, n)


def like(bracket, other):
    """The other operand as a bracket: whole numbers are taken as given."""
    return whole(bracket.bits, other) if isinstance(other, int) else other


@lru_cache(maxsize=1024)  # one state asks for the same few powers again and again
def power(b, n):
    """b to the power 0 is 1, to the power n+1 it is b to the power n, times b."""
    return whole(b.bits, 1) if n == 0 else power(b, n - 1) * b


def add_last(total, last):
    """The series' guard: the last addend's upper end is added once more to the upper end."""
    return Bracket(total.bits, total.lower, up(total.bits, *exact_sum(total.upper, last.upper)))
