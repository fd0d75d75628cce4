/* Given values, the four operations and powers of brackets on MPFR.  Assumes what mpfr_bracket.h says. */
#include "mpfr_bracket.h"

int peer_bits = 32;

void peer_ready(bracket *b)
{
    mpfr_custom_init_set(b->lo, MPFR_ZERO_KIND, 0, peer_bits, &b->digits[0]);
    mpfr_custom_init_set(b->hi, MPFR_ZERO_KIND, 0, peer_bits, &b->digits[1]);
}

void peer_given(bracket *r, double x)
{
    mpfr_set_d(r->lo, x, MPFR_RNDD);
    mpfr_set_d(r->hi, x, MPFR_RNDU);
}

/* Both numbers are exact at 64 bits, so that the quotient is rounded once. */
void peer_ratio(bracket *r, int negative, uint64_t p, uint64_t q)
{
    MPFR_DECL_INIT(over, 64);
    MPFR_DECL_INIT(under, 64);
    mpfr_set_ui(over, p, MPFR_RNDN);
    mpfr_set_ui(under, q, MPFR_RNDN);
    if (negative)
        mpfr_neg(over, over, MPFR_RNDN);
    mpfr_div(r->lo, over, under, MPFR_RNDD);
    mpfr_div(r->hi, over, under, MPFR_RNDU);
}

void peer_whole(bracket *r, unsigned long n)
{
    mpfr_set_ui(r->lo, n, MPFR_RNDD);
    mpfr_set_ui(r->hi, n, MPFR_RNDU);
}

void peer_sum(bracket *r, const bracket *a, const bracket *b)
{
    mpfr_add(r->lo, a->lo, b->lo, MPFR_RNDD);
    mpfr_add(r->hi, a->hi, b->hi, MPFR_RNDU);
}

void peer_difference(bracket *r, const bracket *a, const bracket *b)
{
    mpfr_sub(r->lo, a->lo, b->hi, MPFR_RNDD);
    mpfr_sub(r->hi, a->hi, b->lo, MPFR_RNDU);
}

/* b has one sign.  The ends of the other factor that give the least and the greatest product are x and y, and their
   signs say which end of b they meet. */
static void of_one_sign(bracket *r, mpfr_srcptr x, mpfr_srcptr y, const bracket *b)
{
    mpfr_mul(r->lo, x, mpfr_sgn(x) < 0 ? b->hi : b->lo, MPFR_RNDD);
    mpfr_mul(r->hi, y, mpfr_sgn(y) < 0 ? b->lo : b->hi, MPFR_RNDU);
}

/* Both reach across zero.  Rounding keeps the order, so the least of two rounded products is the least one rounded. */
static void of_both_signs(bracket *r, const bracket *a, const bracket *b)
{
    BRACKET(other);
    mpfr_mul(r->lo, a->lo, b->hi, MPFR_RNDD);
    mpfr_mul(other.lo, a->hi, b->lo, MPFR_RNDD);
    mpfr_min(r->lo, r->lo, other.lo, MPFR_RNDD);
    mpfr_mul(r->hi, a->lo, b->lo, MPFR_RNDU);
    mpfr_mul(other.hi, a->hi, b->hi, MPFR_RNDU);
    mpfr_max(r->hi, r->hi, other.hi, MPFR_RNDU);
}

void peer_product(bracket *r, const bracket *a, const bracket *b)
{
    if (mpfr_sgn(b->lo) >= 0)
        of_one_sign(r, a->lo, a->hi, b);
    else if (mpfr_sgn(b->hi) <= 0)
        of_one_sign(r, a->hi, a->lo, b);
    else if (mpfr_sgn(a->lo) >= 0)
        of_one_sign(r, b->lo, b->hi, a);
    else if (mpfr_sgn(a->hi) <= 0)
        of_one_sign(r, b->hi, b->lo, a);
    else
        of_both_signs(r, a, b);
}

void peer_quotient(bracket *r, const bracket *a, const bracket *b)
{
    mpfr_div(r->lo, a->lo, mpfr_sgn(a->lo) < 0 ? b->lo : b->hi, MPFR_RNDD);
    mpfr_div(r->hi, a->hi, mpfr_sgn(a->hi) < 0 ? b->hi : b->lo, MPFR_RNDU);
}

/* b to the power 0 is 1, to the power n + 1 it is b to the power n, times b. */
void peer_power(bracket *r, const bracket *b, unsigned n)
{
    if (n == 0) {
        peer_whole(r, 1);
        return;
    }
    BRACKET(before);
    peer_power(&before, b, n - 1);
    peer_product(r, &before, b);
}
