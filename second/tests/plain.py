"""The step rules once more, as plainly as can be: brackets are pairs of Fractions.  Far too slow for use.

Every operation takes all four results of the ends; down and up are floor and ceiling at the value's last place.
The tests hold the second program's whole numbers to this.  Plain(bits) has the rules at that count of bits.
"""

from fractions import Fraction
from functools import lru_cache
from math import ceil, floor


class Plain:
    def __init__(self, bits):
        self.bits = bits
        self.exponential = lru_cache(maxsize=16)(self.exponential_of_minus)
        self.R = self.given(Fraction("461.51805"))

    # numbers and brackets

    def last_place(self, x):
        """The unit of the last digit of a number that is not zero."""
        x = abs(x)
        e = x.numerator.bit_length() - x.denominator.bit_length() - self.bits
        unit = Fraction(2) ** e
        return unit if x < unit * 2 ** self.bits else 2 * unit

    def down(self, x):
        return floor(x / self.last_place(x)) * self.last_place(x) if x else x

    def up(self, x):
        return ceil(x / self.last_place(x)) * self.last_place(x) if x else x

    def given(self, x):
        return self.down(Fraction(x)), self.up(Fraction(x))

    def over_ends(self, operation, a, b):
        results = [operation(x, y) for x in a for y in b]
        return self.down(min(results)), self.up(max(results))

    def plus(self, a, b):
        return self.over_ends(lambda x, y: x + y, a, b)

    def less(self, a, b):
        return self.over_ends(lambda x, y: x - y, a, b)

    def times(self, a, b):
        return self.over_ends(lambda x, y: x * y, a, b)

    def over(self, a, b):
        return self.over_ends(lambda x, y: x / y, a, b)

    def power(self, b, n):
        return self.given(1) if n == 0 else self.times(self.power(b, n - 1), b)

    # the two series

    def guarded(self, terms):
        total = terms[0]
        for term in terms[1:]:
            total = self.plus(total, term)
        return total[0], self.up(total[1] + terms[-1][1])

    def exponential_of_minus(self, x):
        terms = [self.given(1)]
        for k in range(1, 257):
            terms.append(self.over(self.times(terms[-1], x), self.given(k)))
        return self.over(self.given(1), self.guarded(terms))

    def cut_off(self, g):
        """E where g may be above 128 (02 h)."""
        x = min(Fraction(128), g[0])
        return Fraction(0), self.exponential((x, x))[1]

    def series(self, z):
        powers = [z]
        for _ in range(20):
            powers.append(self.times(powers[-1], self.times(z, z)))
        quotients = [self.over(p, self.given(2 * j + 1)) for j, p in enumerate(powers)]
        return self.times(self.given(2), self.guarded(quotients))

    def logarithm(self, liquid, vapour):
        k = max(k for k in range(22) if 2 ** k <= liquid / vapour)
        r = self.over(self.given(liquid), self.times(self.given(vapour), self.given(2 ** k)))
        z = self.over(self.less(r, self.given(1)), self.plus(r, self.given(1)))
        return self.plus(self.times(self.given(k), self.series(self.given(Fraction(1, 3)))), self.series(z))

    # the equation

    def sums(self, terms, T, rho):
        given, plus, less, times, power = self.given, self.plus, self.less, self.times, self.power
        delta, tau = self.over(given(rho), given(322)), self.over(given(Fraction("647.14")), given(T))
        s0 = s1 = s2 = given(0)
        for c, factor, d, t, negative, magnitude, _ in terms:
            v = times(given(Fraction((-1) ** negative * magnitude, 10 ** 16)), power(delta, d))
            v = times(v, power(tau, t))
            w = given(d)
            if c > 0:
                g = times(given(Fraction(factor, 100)), power(delta, c))
                v = times(v, self.exponential(g) if g[1] <= 128 else self.cut_off(g))
                w = less(w, times(given(c), g))
            inner = times(w, less(w, given(1)))
            if c > 0:
                inner = less(inner, times(given(c * c), g))
            s0, s1, s2 = plus(s0, v), plus(s1, times(v, w)), plus(s2, times(v, inner))
        return s0, s1, s2

    def pressure(self, T, rho, s):
        ideal = self.times(self.times(self.given(rho), self.R), self.given(T))
        return self.times(ideal, self.plus(self.given(1), s[1]))

    def stiffness(self, T, s):
        twice = self.times(self.given(2), s[1])
        return self.times(self.times(self.R, self.given(T)), self.plus(self.plus(self.given(1), twice), s[2]))

    def gibbs_gap(self, T, liquid, vapour, a, b):
        gap = self.less(self.plus(a[0], a[1]), self.plus(b[0], b[1]))
        return self.times(self.times(self.R, self.given(T)), self.plus(self.logarithm(liquid, vapour), gap))

    # the vapour card

    def card(self, terms, T, rho):
        given, plus, less, times, over = self.given, self.plus, self.less, self.times, self.over
        tau = over(given(Fraction("647.14")), given(T))
        linear = square = damped = given(0)
        for c, _, d, t, negative, magnitude, _ in terms:
            v = times(given(Fraction((-1) ** negative * magnitude, 10 ** 16)), self.power(tau, t))
            linear = plus(linear, v) if d == 1 else linear
            square = plus(square, v) if d == 2 else square
            damped = plus(damped, v) if (c, d) == (1, 1) else damped
        B = over(linear, given(322))
        C = over(times(given(2), less(square, damped)), times(given(322), given(322)))
        rho = given(rho)
        factor = plus(plus(given(1), times(B, rho)), times(times(C, rho), rho))
        return B, C, times(times(times(rho, self.R), given(T)), factor)
