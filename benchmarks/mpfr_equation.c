/* The equation's three sums, and what one state and one pair are made of.  Assumes what mpfr_equation.h says. */
#include "mpfr_equation.h"

enum { MOST = 64 }; /* terms of a table */

typedef struct {
    unsigned c, factor, d, t; /* the factor in hundredths */
    int negative;
    uint64_t magnitude;
} term;

typedef struct {
    bracket s0, s1, s2;
} sums;

/* The exponentials that a phase has taken, each for its c and its factor. */
typedef struct {
    size_t count;
    struct {
        unsigned c, factor;
        bracket e;
    } each[MOST];
} taken;

int peer_once = 0;

/* Nine bytes, most significant bit first: c 2, d 4, t 5, sign 1, magnitude 60. */
static term of_nine(const uint8_t *nine)
{
    unsigned head = nine[0] << 4 | nine[1] >> 4;
    uint64_t magnitude = nine[1] & 15;
    for (int i = 2; i < 9; i++)
        magnitude = magnitude << 8 | nine[i];
    return (term){head >> 10, head >> 10 ? 100 : 0, head >> 6 & 15, head >> 1 & 31, head & 1, magnitude};
}

/* Twelve bytes: c 4, factor 10, d 5, t 6, sign 1, magnitude 60, 10 zeros. */
static term of_twelve(const uint8_t *twelve)
{
    uint64_t front = 0, back = 0;
    for (int i = 0; i < 8; i++)
        front = front << 8 | twelve[i];
    for (int i = 8; i < 12; i++)
        back = back << 8 | twelve[i];
    unsigned head = front >> 38;
    uint64_t magnitude = (front & 0x3fffffffff) << 22 | back >> 10;
    return (term){head >> 22, head >> 12 & 1023, head >> 7 & 31, head >> 1 & 63, head & 1, magnitude};
}

/* E: from 0 to the rule's upper end at the smaller of 128 and g's lower end, where g may be above 128. */
static void exponential(bracket *r, const bracket *g)
{
    BRACKET(x);
    if (mpfr_cmp_ui(g->hi, 128) <= 0) {
        peer_exponential(r, g);
        return;
    }
    peer_whole(&x, 128);
    if (mpfr_cmp_ui(g->lo, 128) < 0) {
        mpfr_set(x.lo, g->lo, MPFR_RNDN);
        mpfr_set(x.hi, g->lo, MPFR_RNDN);
    }
    peer_exponential(r, &x);
    mpfr_set_zero(r->lo, 1);
}

/* A term's E: the one that was taken for its c and its factor, or else one more. */
static const bracket *exponential_of(taken *all, const term *n, const bracket *g)
{
    size_t i = peer_once ? 0 : all->count;
    while (i < all->count && (all->each[i].c != n->c || all->each[i].factor != n->factor))
        i++;
    bracket *e = &all->each[i].e;
    if (i == all->count) {
        all->count++;
        all->each[i].c = n->c;
        all->each[i].factor = n->factor;
        peer_ready(e);
        exponential(e, g);
    }
    return e;
}

/* V = ((coefficient times delta^d) times tau^t) times E; without c there is no E. */
static void value(bracket *r, const term *n, const bracket *delta, const bracket *tau, const bracket *g, taken *all)
{
    BRACKET(coefficient);
    BRACKET(power);
    BRACKET(first);
    BRACKET(second);
    peer_ratio(&coefficient, n->negative, n->magnitude, 10000000000000000u);
    peer_power(&power, delta, n->d);
    peer_product(&first, &coefficient, &power);
    peer_power(&power, tau, n->t);
    if (n->c == 0) {
        peer_product(r, &first, &power);
        return;
    }
    peer_product(&second, &first, &power);
    peer_product(r, &second, exponential_of(all, n, g));
}

/* w = d - (c times g), and what V is multiplied with in S2: (w times (w - 1)) - (c^2 times g). */
static void weights(bracket *w, bracket *w2, const term *n, const bracket *g)
{
    BRACKET(whole);
    BRACKET(d);
    BRACKET(part);
    BRACKET(less);
    BRACKET(product);
    if (n->c == 0) {
        peer_whole(w, n->d);
    } else {
        peer_whole(&d, n->d);
        peer_whole(&whole, n->c);
        peer_product(&part, &whole, g);
        peer_difference(w, &d, &part);
    }
    peer_whole(&whole, 1);
    peer_difference(&less, w, &whole);
    if (n->c == 0) {
        peer_product(w2, w, &less);
        return;
    }
    peer_product(&product, w, &less);
    peer_whole(&whole, n->c * n->c);
    peer_product(&part, &whole, g);
    peer_difference(w2, &product, &part);
}

/* g = factor times delta^c; the factor 1 is left out, for it changes nothing. */
static void exponent(bracket *r, const term *n, const bracket *delta)
{
    BRACKET(power);
    BRACKET(factor);
    if (n->factor == 100) {
        peer_power(r, delta, n->c);
        return;
    }
    peer_power(&power, delta, n->c);
    peer_ratio(&factor, 0, n->factor, 100);
    peer_product(r, &factor, &power);
}

static void add_term(sums *s, const term *n, const bracket *delta, const bracket *tau, taken *all)
{
    BRACKET(g);
    BRACKET(v);
    BRACKET(w);
    BRACKET(w2);
    BRACKET(addend);
    if (n->c != 0)
        exponent(&g, n, delta);
    value(&v, n, delta, tau, &g, all);
    weights(&w, &w2, n, &g);
    peer_sum(&s->s0, &s->s0, &v);
    peer_product(&addend, &v, &w);
    peer_sum(&s->s1, &s->s1, &addend);
    peer_product(&addend, &v, &w2);
    peer_sum(&s->s2, &s->s2, &addend);
}

static void sums_of(sums *s, uint64_t kind, const uint8_t *table, size_t length, double T, double rho)
{
    size_t size = kind == 58 ? 12 : 9;
    taken all;
    BRACKET(given);
    BRACKET(constant);
    BRACKET(delta);
    BRACKET(tau);
    peer_given(&given, rho);
    peer_whole(&constant, 322);
    peer_quotient(&delta, &given, &constant);
    peer_given(&given, T);
    peer_ratio(&constant, 0, 64714, 100);
    peer_quotient(&tau, &constant, &given);
    peer_ready(&s->s0);
    peer_ready(&s->s1);
    peer_ready(&s->s2);
    all.count = 0;
    for (size_t at = 0; at < length; at += size) {
        term n = kind == 58 ? of_twelve(table + at) : of_nine(table + at);
        add_term(s, &n, &delta, &tau, &all);
    }
}

/* ((rho times R) times T) times (1 + S1). */
static void pressure(bracket *r, const sums *s, double T, double rho)
{
    BRACKET(given);
    BRACKET(constant);
    BRACKET(first);
    BRACKET(second);
    peer_given(&given, rho);
    peer_ratio(&constant, 0, 46151805, 100000);
    peer_product(&first, &given, &constant);
    peer_given(&given, T);
    peer_product(&second, &first, &given);
    peer_whole(&constant, 1);
    peer_sum(&first, &constant, &s->s1);
    peer_product(r, &second, &first);
}

/* R times T. */
static void warmth(bracket *r, double T)
{
    BRACKET(given);
    BRACKET(constant);
    peer_given(&given, T);
    peer_ratio(&constant, 0, 46151805, 100000);
    peer_product(r, &constant, &given);
}

/* (R times T) times ((1 + (2 times S1)) + S2). */
static void stiffness(bracket *r, const sums *s, double T)
{
    BRACKET(whole);
    BRACKET(twice);
    BRACKET(total);
    BRACKET(heat);
    peer_whole(&whole, 2);
    peer_product(&twice, &whole, &s->s1);
    peer_whole(&whole, 1);
    peer_sum(&total, &whole, &twice);
    peer_sum(&total, &total, &s->s2);
    warmth(&heat, T);
    peer_product(r, &heat, &total);
}

/* (R times T) times (ln q + ((S0 + S1) of the liquid - (S0 + S1) of the vapour)). */
static void gibbs_gap(bracket *r, const sums *heavy, const sums *light, double T, double liquid, double vapour)
{
    BRACKET(ln_q);
    BRACKET(a);
    BRACKET(b);
    BRACKET(gap);
    BRACKET(heat);
    peer_logarithm(&ln_q, liquid, vapour);
    peer_sum(&a, &heavy->s0, &heavy->s1);
    peer_sum(&b, &light->s0, &light->s1);
    peer_difference(&gap, &a, &b);
    peer_sum(&ln_q, &ln_q, &gap);
    warmth(&heat, T);
    peer_product(r, &heat, &ln_q);
}

/* Zero is handed out as +0.0. */
static void hand_out(double *two, const bracket *b)
{
    two[0] = mpfr_zero_p(b->lo) ? 0.0 : mpfr_get_d(b->lo, MPFR_RNDN);
    two[1] = mpfr_zero_p(b->hi) ? 0.0 : mpfr_get_d(b->hi, MPFR_RNDN);
}

void peer_state(state_ends *r, uint64_t kind, const uint8_t *table, size_t length, double T, double rho)
{
    sums s;
    BRACKET(b);
    sums_of(&s, kind, table, length, T, rho);
    pressure(&b, &s, T, rho);
    hand_out(r->pressure, &b);
    stiffness(&b, &s, T);
    hand_out(r->stiffness, &b);
}

void peer_pair(pair_ends *r, uint64_t kind, const uint8_t *table, size_t length, double T, double liquid, double vapour)
{
    sums heavy, light;
    BRACKET(a);
    BRACKET(b);
    BRACKET(gap);
    sums_of(&heavy, kind, table, length, T, liquid);
    sums_of(&light, kind, table, length, T, vapour);
    pressure(&a, &heavy, T, liquid);
    hand_out(r->liquid_pressure, &a);
    pressure(&b, &light, T, vapour);
    hand_out(r->vapour_pressure, &b);
    peer_difference(&gap, &a, &b);
    hand_out(r->pressure_gap, &gap);
    gibbs_gap(&gap, &heavy, &light, T, liquid, vapour);
    hand_out(r->gibbs_gap, &gap);
    stiffness(&a, &heavy, T);
    hand_out(r->liquid_stiffness, &a);
    stiffness(&b, &light, T);
    hand_out(r->vapour_stiffness, &b);
}
