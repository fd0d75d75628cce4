/* A pair by the rules of 01 with every shortcut: the table is unpacked and its coefficients are made once for both phases; each power of
   delta and tau, each exponential, and what a term is weighted with by its c and d are taken once; the end of an exponential's series
   is taken at once.
   Only rounding down is written: up(x) is -down(-x).  Assumes what shortcut.h says, and that >> of a number below zero goes down, as
   gcc's does. */
#include <math.h>
#include <string.h>
#include "shortcut.h"

/* A call takes longer than most of these functions. */
#define INLINE static inline __attribute__((always_inline))

enum { BITS = 32, LOWEST = -1000000, MOST = 64, CS = 4, DS = 16, TS = 32 }; /* terms of a table; each field's values */

/* m 2^e, with 2^31 <= |m| < 2^32; zero has m 0, and an e below all others. */
typedef struct {
    int64_t m, e;
} number;

typedef struct {
    number lo, hi;
} bracket;

/* Single numbers. */

INLINE number minus(number a)
{
    return (number){-a.m, a.e};
}

/* Down of m 2^e.  Digits behind m that were rounded down change nothing, if m has 32 or more. */
INLINE number down(int64_t m, int64_t e)
{
    if (m == 0)
        return (number){0, LOWEST};
    int cut = BITS - __builtin_clzll(m < 0 ? -m : m);
    m = cut > 0 ? m >> cut : m * ((int64_t)1 << -cut);
    if (m == -((int64_t)1 << BITS))
        return (number){m / 2, e + cut + 1};
    return (number){m, e + cut};
}

/* Each addend gets 30 digits more, and what the smaller one loses behind them is rounded down. */
INLINE number sum_down(number a, number b)
{
    if (a.e < b.e) {
        number c = a;
        a = b;
        b = c;
    }
    int64_t apart = a.e - b.e < 63 ? a.e - b.e : 63, more = (int64_t)1 << 30;
    return down(a.m * more + (b.m * more >> apart), a.e - 30);
}

INLINE number sum_up(number a, number b)
{
    return minus(sum_down(minus(a), minus(b)));
}

INLINE number product_down(number a, number b)
{
    return down((__int128)a.m * b.m >> 2, a.e + b.e + 2);
}

INLINE number product_up(number a, number b)
{
    return minus(product_down(minus(a), b));
}

/* The divisor is above zero. */
INLINE number quotient_down(number a, number b)
{
    uint64_t over = (uint64_t)(a.m < 0 ? -a.m : a.m) << 32, q = over / b.m;
    return down(a.m < 0 ? -(int64_t)(q + (q * b.m != over)) : (int64_t)q, a.e - b.e - 32);
}

INLINE number quotient_up(number a, number b)
{
    return minus(quotient_down(minus(a), b));
}

/* Brackets. */

static bracket exactly(int64_t n)
{
    number x = down(n, 0);
    return (bracket){x, x};
}

static bracket given(double x)
{
    int e;
    int64_t m = ldexp(frexp(x, &e), 53);
    return (bracket){down(m, e - 53), minus(down(-m, e - 53))};
}

/* p / q, both above zero, by its first 40 digits and whether anything is left behind them. */
static bracket ratio(uint64_t p, uint64_t q)
{
    int more = 40 + __builtin_clzll(p) - __builtin_clzll(q);
    unsigned __int128 over = (unsigned __int128)p << more;
    int64_t m = over / q, rest = over % q != 0;
    return (bracket){down(m, -more), minus(down(-m - rest, -more))};
}

INLINE bracket negative(bracket a)
{
    return (bracket){minus(a.hi), minus(a.lo)};
}

INLINE bracket sum(bracket a, bracket b)
{
    return (bracket){sum_down(a.lo, b.lo), sum_up(a.hi, b.hi)};
}

INLINE bracket difference(bracket a, bracket b)
{
    return sum(a, negative(b));
}

INLINE bracket quotient(bracket a, bracket b)
{
    return (bracket){quotient_down(a.lo, a.lo.m < 0 ? b.lo : b.hi), quotient_up(a.hi, a.hi.m < 0 ? b.hi : b.lo)};
}

/* b has one sign; x and y are the other factor's ends that give the least and the greatest product. */
INLINE bracket of_one_sign(number x, number y, bracket b)
{
    return (bracket){product_down(x, x.m < 0 ? b.hi : b.lo), product_up(y, y.m < 0 ? b.lo : b.hi)};
}

static number lesser(number a, number b)
{
    return sum_down(a, minus(b)).m < 0 ? a : b;
}

/* Both are above zero: a product has 63 digits or 64. */
INLINE bracket of_positive(bracket a, bracket b)
{
    uint64_t p = (uint64_t)a.lo.m * b.lo.m, q = (uint64_t)a.hi.m * b.hi.m;
    int cut = 31 + (p >> 63), cut_up = 31 + (q >> 63);
    int64_t m = (q + ((uint64_t)1 << cut_up) - 1) >> cut_up, carry = m >> BITS;
    return (bracket){{p >> cut, a.lo.e + b.lo.e + cut}, {m >> carry, a.hi.e + b.hi.e + cut_up + carry}};
}

INLINE bracket product(bracket a, bracket b)
{
    if (a.lo.m > 0 && b.lo.m > 0)
        return of_positive(a, b);
    if (a.lo.m > 0 && b.hi.m < 0)
        return negative(of_positive(a, negative(b)));
    if (b.lo.m >= 0)
        return of_one_sign(a.lo, a.hi, b);
    if (b.hi.m <= 0)
        return of_one_sign(a.hi, a.lo, b);
    if (a.lo.m >= 0)
        return of_one_sign(b.lo, b.hi, a);
    if (a.hi.m <= 0)
        return of_one_sign(b.hi, b.lo, a);
    return (bracket){lesser(product_down(a.lo, b.hi), product_down(a.hi, b.lo)),
                     minus(lesser(minus(product_up(a.lo, b.lo)), minus(product_up(a.hi, b.hi))))};
}

/* What does not change from pair to pair. */
static struct {
    int ready;
    bracket one, two, critical_density, critical_temperature, gas, ln_2;
} constant;

/* The two series. */

/* n numbers on, above zero. */
static number onward(number a, int64_t n)
{
    int64_t m = a.m + n, full = (int64_t)1 << BITS;
    return m < full ? (number){m, a.e} : (number){m - full / 2, a.e + 1};
}

/* A number above zero over a whole number, which has nine digits at most. */
INLINE bracket share(bracket a, uint64_t n)
{
    uint64_t p = (uint64_t)a.lo.m << 31, q = (uint64_t)a.hi.m << 31;
    return (bracket){down(p / n, a.lo.e - 31), minus(down(-(int64_t)((q + n - 1) / n), a.hi.e - 31))};
}

/* The exponential of minus x.  Where a term lies below one unit of the sum's last place, and the terms do not grow, each of the steps
   that are left moves the sum's upper end to the next number. */
static bracket exponential(bracket x)
{
    bracket one = constant.one, term = one, total = one;
    double most = ldexp(x.hi.m, x.hi.e);
    for (int k = 0; k < 256; k++) {
        if (total.lo.e > term.hi.e + BITS && most <= k + 1) {
            total.hi = onward(total.hi, 257 - k);
            return quotient(one, total);
        }
        term = share(of_positive(term, x), k + 1);
        total = sum(total, term);
    }
    total.hi = sum_up(total.hi, term.hi);
    return quotient(one, total);
}

/* ln((1 + z) / (1 - z)). */
static bracket of_odd_powers(bracket z)
{
    bracket square = product(z, z), power = z, share = z, total = z;
    for (int j = 1; j <= 20; j++) {
        power = product(power, square);
        share = quotient(power, exactly(2 * j + 1));
        total = sum(total, share);
    }
    total.hi = sum_up(total.hi, share.hi);
    return product(constant.two, total);
}

static bracket logarithm(double liquid, double vapour)
{
    int k = 0;
    for (double v = vapour; 2 * v <= liquid; v *= 2) /* exact in this range */
        k++;
    bracket r = quotient(given(liquid), product(given(vapour), exactly((int64_t)1 << k)));
    bracket z = quotient(difference(r, constant.one), sum(r, constant.one));
    return sum(product(exactly(k), constant.ln_2), of_odd_powers(z));
}

/* The equation. */

static void make_constants(void)
{
    constant.one = exactly(1);
    constant.two = exactly(2);
    constant.critical_density = exactly(322);
    constant.critical_temperature = ratio(64714, 100);
    constant.gas = ratio(46151805, 100000);
    constant.ln_2 = of_odd_powers(ratio(1, 3));
    constant.ready = 1;
}

typedef struct {
    int c, d, t, negative;
    bracket coefficient; /* without its sign */
} term;

/* A table, which c and d occur together, and what its fields reach. */
typedef struct {
    size_t count;
    unsigned used[CS]; /* by c, a bit for each d */
    int greatest_d, greatest_t;
    term terms[MOST];
} terms;

/* Nine bytes each, most significant bit first: c 2, d 4, t 5, sign 1, magnitude 60. */
static void unpack(terms *r, const uint8_t *table, size_t length)
{
    memset(r, 0, offsetof(terms, terms));
    for (const uint8_t *nine = table; nine < table + length; nine += 9) {
        unsigned head = nine[0] << 4 | nine[1] >> 4;
        uint64_t magnitude = nine[1] & 15;
        for (int i = 2; i < 9; i++)
            magnitude = magnitude << 8 | nine[i];
        term *n = &r->terms[r->count++];
        *n = (term){head >> 10, head >> 6 & 15, head >> 1 & 31, head & 1, ratio(magnitude, 10000000000000000u)};
        r->used[n->c] |= 1u << n->d;
        r->greatest_d = n->d > r->greatest_d ? n->d : r->greatest_d;
        r->greatest_t = n->t > r->greatest_t ? n->t : r->greatest_t;
    }
}

/* b to the powers 0 to n. */
static void powers(bracket *r, bracket b, int n)
{
    r[0] = constant.one;
    for (int i = 1; i <= n; i++)
        r[i] = product(r[i - 1], b);
}

/* What V is multiplied with in S1 and in S2: w and (w times (w - 1)) - (c^2 times g), by c and d. */
typedef struct {
    bracket w, w2;
} weights;

static weights weights_of(int c, int d, bracket g)
{
    bracket w = exactly(d);
    if (c == 0)
        return (weights){w, product(w, exactly(d - 1))};
    w = difference(w, product(exactly(c), g));
    return (weights){w, difference(product(w, difference(w, constant.one)), product(exactly(c * c), g))};
}

typedef struct {
    bracket s0, s1, pressure, stiffness;
} phase;

/* The three sums, then ((rho times R) times T) times (1 + S1) and (R times T) times ((1 + (2 times S1)) + S2). */
static phase phase_of(const terms *all, const bracket *taus, bracket T, bracket heat, bracket rho)
{
    bracket zero = exactly(0), s0 = zero, s1 = zero, s2 = zero, deltas[DS], e[CS];
    weights by[CS][DS];
    powers(deltas, quotient(rho, constant.critical_density), all->greatest_d > CS - 1 ? all->greatest_d : CS - 1);
    for (int c = 0; c < CS; c++) {
        if (c && all->used[c])
            e[c] = exponential(deltas[c]);
        for (int d = 1; d <= all->greatest_d; d++)
            if (all->used[c] >> d & 1)
                by[c][d] = weights_of(c, d, deltas[c]);
    }
    for (const term *n = all->terms; n < all->terms + all->count; n++) {
        bracket v = of_positive(of_positive(n->coefficient, deltas[n->d]), taus[n->t]);
        if (n->c)
            v = of_positive(v, e[n->c]);
        bracket v1 = product(v, by[n->c][n->d].w), v2 = product(v, by[n->c][n->d].w2);
        s0 = sum(s0, n->negative ? negative(v) : v);
        s1 = sum(s1, n->negative ? negative(v1) : v1);
        s2 = sum(s2, n->negative ? negative(v2) : v2);
    }
    return (phase){s0, s1, product(product(product(rho, constant.gas), T), sum(constant.one, s1)),
                   product(heat, sum(sum(constant.one, product(constant.two, s1)), s2))};
}

static void hand_out(double *two, bracket b)
{
    two[0] = ldexp(b.lo.m, b.lo.e);
    two[1] = ldexp(b.hi.m, b.hi.e);
}

void shortcut_pair(pair_ends *r, const uint8_t *table, size_t length, double T, double liquid, double vapour)
{
    if (!constant.ready)
        make_constants();
    terms all;
    bracket taus[TS], warm = given(T), heat = product(constant.gas, warm);
    unpack(&all, table, length);
    powers(taus, quotient(constant.critical_temperature, warm), all.greatest_t);
    phase l = phase_of(&all, taus, warm, heat, given(liquid)), g = phase_of(&all, taus, warm, heat, given(vapour));
    bracket apart = difference(sum(l.s0, l.s1), sum(g.s0, g.s1));
    hand_out(r->liquid_pressure, l.pressure);
    hand_out(r->vapour_pressure, g.pressure);
    hand_out(r->pressure_gap, difference(l.pressure, g.pressure));
    hand_out(r->gibbs_gap, product(heat, sum(logarithm(liquid, vapour), apart)));
    hand_out(r->liquid_stiffness, l.stiffness);
    hand_out(r->vapour_stiffness, g.stiffness);
}
