/* The exponential of minus x and the logarithm of a density ratio on MPFR (01, the two series).
   Assumes x from 0 to 128, and liquid not below vapour, both in 01's range of densities. */
#include "mpfr_bracket.h"

static void copy(bracket *r, const bracket *a)
{
    mpfr_set(r->lo, a->lo, MPFR_RNDN);
    mpfr_set(r->hi, a->hi, MPFR_RNDN);
}

/* A series' last addend once more, on the upper end only. */
static void add_last(bracket *total, const bracket *last)
{
    mpfr_add(total->hi, total->hi, last->hi, MPFR_RNDU);
}

int peer_stops = 0;

/* Whether each step from here on leaves the sum's lower end where it is and moves its upper end to the next number: the terms are
   above zero, do not grow any more, and lie below one unit of the sum's last place. */
static int only_stretches(const bracket *x, const bracket *term, const bracket *total, unsigned k)
{
    return mpfr_sgn(x->hi) > 0 && mpfr_get_exp(term->hi) + peer_bits < mpfr_get_exp(total->lo) && mpfr_cmp_ui(x->hi, k + 1) <= 0;
}

/* The upper end goes n numbers on.  Its digits stand at the top of 64 bits; past the greatest of them comes the least, one place up. */
static void stretch(bracket *b, unsigned n)
{
    mp_limb_t before = b->digits[1];
    b->digits[1] += (mp_limb_t)n << (64 - peer_bits);
    if (b->digits[1] < before) {
        b->digits[1] |= (mp_limb_t)1 << 63;
        mpfr_set_exp(b->hi, mpfr_get_exp(b->hi) + 1);
    }
}

/* The terms to 256, the last one's upper end twice. */
static void sum_of_terms(bracket *total, const bracket *x)
{
    BRACKET(term);
    BRACKET(power);
    BRACKET(count);
    peer_whole(&term, 1);
    peer_whole(total, 1);
    for (unsigned k = 0; k < 256; k++) {
        if (peer_stops && only_stretches(x, &term, total, k)) {
            stretch(total, 257 - k);
            return;
        }
        peer_product(&power, &term, x);
        peer_whole(&count, k + 1);
        peer_quotient(&term, &power, &count);
        peer_sum(total, total, &term);
    }
    add_last(total, &term);
}

void peer_exponential(bracket *r, const bracket *x)
{
    BRACKET(one);
    BRACKET(total);
    peer_whole(&one, 1);
    sum_of_terms(&total, x);
    peer_quotient(r, &one, &total);
}

/* ln((1 + z) / (1 - z)). */
static void of_odd_powers(bracket *r, const bracket *z)
{
    BRACKET(square);
    BRACKET(power);
    BRACKET(next);
    BRACKET(count);
    BRACKET(share);
    BRACKET(total);
    peer_product(&square, z, z);
    peer_whole(&count, 1);
    peer_quotient(&share, z, &count);
    copy(&total, &share);
    copy(&power, z);
    for (unsigned j = 1; j <= 20; j++) {
        peer_product(&next, &power, &square);
        copy(&power, &next);
        peer_whole(&count, 2 * j + 1);
        peer_quotient(&share, &power, &count);
        peer_sum(&total, &total, &share);
    }
    add_last(&total, &share);
    peer_whole(&count, 2);
    peer_product(r, &count, &total);
}

/* r is liquid / (vapour 2^k), z is (r - 1) / (r + 1). */
static void of_ratio(bracket *r, double liquid, double vapour, unsigned k)
{
    BRACKET(heavy);
    BRACKET(light);
    BRACKET(factor);
    BRACKET(scaled);
    BRACKET(ratio);
    BRACKET(over);
    BRACKET(under);
    BRACKET(z);
    peer_given(&heavy, liquid);
    peer_given(&light, vapour);
    peer_whole(&factor, 1ul << k);
    peer_product(&scaled, &light, &factor);
    peer_quotient(&ratio, &heavy, &scaled);
    peer_whole(&factor, 1);
    peer_difference(&over, &ratio, &factor);
    peer_sum(&under, &ratio, &factor);
    peer_quotient(&z, &over, &under);
    of_odd_powers(r, &z);
}

void peer_logarithm(bracket *r, double liquid, double vapour)
{
    BRACKET(third);
    BRACKET(two);
    BRACKET(count);
    BRACKET(scaled);
    BRACKET(rest);
    unsigned k = 0;
    for (double v = vapour; 2 * v <= liquid; v *= 2) /* exact in this range */
        k++;
    peer_ratio(&third, 0, 1, 3);
    of_odd_powers(&two, &third);
    peer_whole(&count, k);
    peer_product(&scaled, &count, &two);
    of_ratio(&rest, liquid, vapour, k);
    peer_sum(r, &scaled, &rest);
}
