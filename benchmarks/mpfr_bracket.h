/* Brackets on MPFR: two numbers of 32 or 53 bits, rounded down and up once an operation (01, "Sheet numbers and brackets"; 02 d).
   A number of MPFR at such a precision, with its wide range of exponents, is a sheet number.
   Assumes that a result is none of its operands (but for a sum's first), and that a divisor's lower end is above zero. */
#ifndef MPFR_BRACKET_H
#define MPFR_BRACKET_H

#include <stdint.h>
#include <mpfr.h>

/* The width of every bracket that is made ready from now on: 32 or 53, so that a number's digits are the top of one limb. */
extern int peer_bits;

typedef struct {
    mpfr_t lo, hi;
    mp_limb_t digits[2]; /* what lo and hi point to: no bracket is allocated while the time is taken */
} bracket;

/* Declares a bracket that is ready to be written. */
#define BRACKET(name) bracket name; peer_ready(&name)
void peer_ready(bracket *b);

/* Given values: an f64, a fraction, a whole number of at most 32 bits. */
void peer_given(bracket *r, double x);
void peer_ratio(bracket *r, int negative, uint64_t p, uint64_t q);
void peer_whole(bracket *r, unsigned long n);

void peer_sum(bracket *r, const bracket *a, const bracket *b);
void peer_difference(bracket *r, const bracket *a, const bracket *b);
void peer_product(bracket *r, const bracket *a, const bracket *b);
void peer_quotient(bracket *r, const bracket *a, const bracket *b);
void peer_power(bracket *r, const bracket *b, unsigned n);

/* Whether the exponential takes the rest of its series at once, as the library does; else it goes all 256 steps. */
extern int peer_stops;

/* The exponential of minus x, and the logarithm of liquid over vapour. */
void peer_exponential(bracket *r, const bracket *x);
void peer_logarithm(bracket *r, double liquid, double vapour);

#endif
