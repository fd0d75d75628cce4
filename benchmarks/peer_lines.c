/* The peers as programs of the comparison, so that tests/compare can hold them to the second program.  peer_lines NAME [WAY..] answers the
   records of tests/gen_NAME.py on MPFR, for single, brackets, series, states and pairs; the way `stop` has the exponential take the rest
   of its series at once, `once` takes each different exponential of a phase once.  peer_lines shortcut answers those of
   benchmarks/gen_shortcut.py by the program with every shortcut.
   Assumes whole records, as tests/stream.py describes them. */
#include <stdio.h>
#include <stdlib.h>
#include <string.h>
#include "mpfr_equation.h"
#include "shortcut.h"

enum { BIAS = 262144, LONGEST = 768 };

/* The next word of standard input, most significant byte first; 0 where the input ends. */
static int next_word(uint64_t *word)
{
    uint8_t bytes[8];
    size_t got = fread(bytes, 1, 8, stdin);
    if (got != 0 && got != 8) {
        fputs("peer_lines: a record is cut short\n", stderr);
        exit(1);
    }
    *word = 0;
    for (size_t i = 0; i < got; i++)
        *word = *word << 8 | bytes[i];
    return got == 8;
}

static uint64_t word(void)
{
    uint64_t w;
    if (!next_word(&w)) {
        fputs("peer_lines: a record is cut short\n", stderr);
        exit(1);
    }
    return w;
}

static double f64(void)
{
    uint64_t w = word();
    double x;
    memcpy(&x, &w, 8);
    return x;
}

static void end(mpfr_ptr x)
{
    int negative = word() != 0;
    uint64_t m = word(), e = word();
    mpfr_set_ui_2exp(x, m, (mpfr_exp_t)e - BIAS, MPFR_RNDN); /* exact; zero has m 0 */
    if (negative)
        mpfr_neg(x, x, MPFR_RNDN);
}

static void read_bracket(bracket *b)
{
    end(b->lo);
    end(b->hi);
}

static uint8_t table[LONGEST + 8];

/* Gives the table's length. */
static size_t read_table(void)
{
    uint64_t length = word();
    if (length > LONGEST) {
        fputs("peer_lines: a table is too long\n", stderr);
        exit(1);
    }
    for (size_t at = 0; at < length; at += 8) {
        uint64_t w = word();
        for (size_t i = 0; i < 8; i++)
            table[at + i] = w >> (56 - 8 * i);
    }
    return length;
}

/* The words of the line that is being made. */
static uint64_t line[12];
static size_t words;

static void put(uint64_t w)
{
    line[words++] = w;
}

static void put_f64(const double *two)
{
    for (int i = 0; i < 2; i++) {
        uint64_t w;
        memcpy(&w, &two[i], 8);
        put(w);
    }
}

static void put_end(mpfr_srcptr x)
{
    const mp_limb_t *digits = mpfr_custom_get_significand(x); /* they stand at the top of 64 bits */
    int zero = mpfr_zero_p(x);
    put(!zero && mpfr_signbit(x));
    put(zero ? 0 : *digits >> (64 - peer_bits));
    put(zero ? 0 : mpfr_get_exp(x) - peer_bits + BIAS);
}

static void put_bracket(const bracket *b)
{
    put_end(b->lo);
    put_end(b->hi);
}

static void end_line(void)
{
    for (size_t i = 0; i < words; i++)
        printf("%016llx%c", (unsigned long long)line[i], i + 1 < words ? ' ' : '\n');
    words = 0;
}

typedef int single(mpfr_ptr, mpfr_srcptr, mpfr_srcptr, mpfr_rnd_t);
typedef void operation(bracket *, const bracket *, const bracket *);

/* In each answer, the record's first word has been read: it is the width. */
static void answer_single(void)
{
    static single *const operations[] = {mpfr_add, mpfr_sub, mpfr_mul, mpfr_div};
    single *operation = operations[word()];
    mpfr_rnd_t direction = word() ? MPFR_RNDU : MPFR_RNDD;
    BRACKET(operands);
    BRACKET(r);
    read_bracket(&operands); /* two single numbers here */
    operation(r.lo, operands.lo, operands.hi, direction);
    put_end(r.lo);
}

static void answer_brackets(void)
{
    static operation *const operations[] = {peer_sum, peer_difference, peer_product, peer_quotient};
    uint64_t kind = word();
    unsigned n = word();
    BRACKET(a);
    BRACKET(b);
    BRACKET(r);
    read_bracket(&a);
    read_bracket(&b);
    if (kind == 4)
        peer_power(&r, &a, n);
    else
        operations[kind](&r, &a, &b);
    put_bracket(&r);
}

static void answer_series(void)
{
    BRACKET(x);
    BRACKET(r);
    if (word() == 0) {
        read_bracket(&x);
        peer_exponential(&r, &x);
    } else {
        double liquid = f64(), vapour = f64();
        for (int i = 0; i < 4; i++)
            word();
        peer_logarithm(&r, liquid, vapour);
    }
    put_bracket(&r);
}

static void answer_state(void)
{
    state_ends r;
    uint64_t kind = word();
    size_t length = read_table();
    double T = f64(), rho = f64();
    peer_state(&r, kind, table, length, T, rho);
    put_f64(r.pressure);
    put_f64(r.stiffness);
}

static void put_pair(const pair_ends *r)
{
    put_f64(r->liquid_pressure);
    put_f64(r->vapour_pressure);
    put_f64(r->pressure_gap);
    put_f64(r->gibbs_gap);
    put_f64(r->liquid_stiffness);
    put_f64(r->vapour_stiffness);
}

static void answer_pair(void)
{
    pair_ends r;
    uint64_t kind = word();
    size_t length = read_table();
    double T = f64(), liquid = f64(), vapour = f64();
    peer_pair(&r, kind, table, length, T, liquid, vapour);
    put_pair(&r);
}

static void answer_shortcut(void)
{
    pair_ends r;
    word(); /* the kind is 38, and the width 32 */
    size_t length = read_table();
    double T = f64(), liquid = f64(), vapour = f64();
    shortcut_pair(&r, table, length, T, liquid, vapour);
    put_pair(&r);
}

int main(int count, char **arguments)
{
    static const struct {
        const char *name;
        void (*answer)(void);
    } kinds[] = {{"single", answer_single}, {"brackets", answer_brackets}, {"series", answer_series},
                 {"states", answer_state}, {"pairs", answer_pair}, {"shortcut", answer_shortcut}};
    for (int i = 2; i < count; i++) {
        peer_stops |= strcmp(arguments[i], "stop") == 0;
        peer_once |= strcmp(arguments[i], "once") == 0;
    }
    for (size_t i = 0; count == 2 + peer_stops + peer_once && i < sizeof kinds / sizeof *kinds; i++) {
        if (strcmp(arguments[1], kinds[i].name) != 0)
            continue;
        for (uint64_t width; next_word(&width); end_line()) {
            peer_bits = width;
            kinds[i].answer();
        }
        return 0;
    }
    fputs("usage: peer_lines single|brackets|series|states|pairs|shortcut [stop] [once]\n", stderr);
    return 2;
}
