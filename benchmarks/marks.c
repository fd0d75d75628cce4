/* marks WIDTH TABLE5 PAIRS5 TABLE4 PAIRS4: times the library's code against the same rules on MPFR at a width of 32 or 53 bits, in one
   process and on the same inputs: single operations, exponentials, and for each kind of table states by number of terms, and pairs, by
   both engines.  TABLE5 and TABLE4 are the paper's tables packed, of kind 38 and of kind 58; PAIRS has f64s as this machine spells
   them: T, liquid, vapour.  Prints a line for each; on an emulator only the ratios say something. */
#include <stdio.h>
#include <stdlib.h>
#include <string.h>
#include "marks.h"
#include "measure.h"
#include "mpfr_equation.h"

enum { BIAS = 262144, OPERANDS = 512, DENSITIES = 16, ARGUMENTS = 3 * DENSITIES, PAIRS = 1000, MOST = 64, LONGEST = 12 };

/* The library's engines, and the peer's ways. */
enum { QUICK, PLAIN };
enum { STOPS = 1, ONCE = 2 };

static void take_way(int way)
{
    peer_stops = way & STOPS;
    peer_once = way & ONCE;
}

/* A number's digits and place, which both sides add up over all results. */
static uint64_t digits_and_place(mpfr_srcptr x)
{
    const mp_limb_t *digits = mpfr_custom_get_significand(x);
    return mpfr_zero_p(x) ? 0 : (*digits >> (64 - peer_bits)) + (mpfr_get_exp(x) - peer_bits + BIAS);
}

static uint64_t bits_of(double x)
{
    uint64_t w;
    memcpy(&w, &x, 8);
    return w;
}

/* A fixed sequence of numbers (xorshift). */
static uint64_t next_random(void)
{
    static uint64_t x = 88172645463325252u;
    x ^= x << 13;
    x ^= x >> 7;
    return x ^= x << 17;
}

/* Single operations.  The first operand has either sign; places differ by up to 15 in one half of the pairs, by up to 63 in the
   other. */

static uint64_t words[6 * OPERANDS];
static mpfr_t numbers[2 * OPERANDS];

static void make_operands(void)
{
    for (size_t i = 0; i < 2 * OPERANDS; i++) {
        uint64_t *w = words + 3 * i;
        w[0] = i % 2 ? 0 : next_random() & 1;
        w[1] = (uint64_t)1 << (peer_bits - 1) | next_random() >> (65 - peer_bits);
        w[2] = BIAS + 1 - peer_bits + next_random() % (i / 2 % 2 ? 16 : 64);
        mpfr_init2(numbers[i], peer_bits);
        mpfr_set_ui_2exp(numbers[i], w[1], (mpfr_exp_t)w[2] - BIAS, MPFR_RNDN);
        if (w[0])
            mpfr_neg(numbers[i], numbers[i], MPFR_RNDN);
    }
}

typedef struct {
    int number, up;
    int (*operation)(mpfr_ptr, mpfr_srcptr, mpfr_srcptr, mpfr_rnd_t);
} single;

static uint64_t library_single(const void *argument, int way)
{
    const single *s = argument;
    (void)way;
    return marks_single(peer_bits, s->number, s->up, words, 6 * OPERANDS);
}

static uint64_t peer_single(const void *argument, int way)
{
    const single *s = argument;
    mpfr_rnd_t direction = s->up ? MPFR_RNDU : MPFR_RNDD;
    uint64_t total = 0;
    BRACKET(r); /* one of its ends */
    (void)way;
    for (size_t i = 0; i < 2 * OPERANDS; i += 2) {
        s->operation(r.lo, numbers[i], numbers[i + 1], direction);
        total += digits_and_place(r.lo);
    }
    return total;
}

static void measure_singles(void)
{
    static const char *const names[] = {"sum, down", "sum, up", "difference, down", "difference, up",
                                        "product, down", "product, up", "quotient, down", "quotient, up"};
    static const single kinds[] = {{0, 0, mpfr_add}, {0, 1, mpfr_add}, {1, 0, mpfr_sub}, {1, 1, mpfr_sub},
                                   {2, 0, mpfr_mul}, {2, 1, mpfr_mul}, {3, 0, mpfr_div}, {3, 1, mpfr_div}};
    make_operands();
    for (size_t i = 0; i < sizeof kinds / sizeof *kinds; i++)
        measure(&(work){names[i], OPERANDS, {{library_single, 0}, {peer_single, 0}}, &kinds[i]});
}

/* Exponentials of minus delta, delta squared and delta cubed, at densities even from one to another. */

typedef struct {
    bracket powers[ARGUMENTS];
    uint64_t words[6 * ARGUMENTS];
} arguments;

static void make_end(uint64_t *w, mpfr_srcptr x)
{
    const mp_limb_t *digits = mpfr_custom_get_significand(x);
    w[0] = 0;
    w[1] = *digits >> (64 - peer_bits);
    w[2] = mpfr_get_exp(x) - peer_bits + BIAS;
}

static void make_arguments(arguments *a, double from, double to)
{
    BRACKET(given);
    BRACKET(critical);
    BRACKET(delta);
    peer_whole(&critical, 322);
    for (int i = 0; i < ARGUMENTS; i++) {
        peer_given(&given, from + (to - from) * (i / 3) / (DENSITIES - 1));
        peer_quotient(&delta, &given, &critical);
        peer_ready(&a->powers[i]);
        peer_power(&a->powers[i], &delta, 1 + i % 3);
        make_end(a->words + 6 * i, a->powers[i].lo);
        make_end(a->words + 6 * i + 3, a->powers[i].hi);
    }
}

static uint64_t library_exponentials(const void *argument, int way)
{
    const arguments *a = argument;
    (void)way;
    return marks_exponential(peer_bits, a->words, 6 * ARGUMENTS);
}

static uint64_t peer_exponentials(const void *argument, int way)
{
    const arguments *a = argument;
    uint64_t total = 0;
    BRACKET(r);
    take_way(way);
    for (int i = 0; i < ARGUMENTS; i++) {
        peer_exponential(&r, &a->powers[i]);
        total += digits_and_place(r.lo) + digits_and_place(r.hi);
    }
    return total;
}

static void measure_exponentials(const char *name, double from, double to)
{
    static arguments a;
    make_arguments(&a, from, to);
    measure(&(work){name, ARGUMENTS, {{library_exponentials, 0}, {peer_exponentials, 0}, {peer_exponentials, STOPS}}, &a});
}

/* A kind with its packed table, and 1,000 pairs of it. */

typedef struct {
    uint64_t kind;
    size_t row, rows, count; /* bytes of a term; terms; pairs */
    uint8_t bytes[MOST * LONGEST];
    double pairs[PAIRS][3];
} packed;

/* Rows of a table at even steps, so that exponentials keep their share; where there are more, some stand there twice. */
static packed of_terms(const packed *all, size_t count)
{
    packed t = {.kind = all->kind, .row = all->row, .rows = count};
    for (size_t i = 0; i < count; i++)
        memcpy(t.bytes + i * t.row, all->bytes + (i * all->rows + all->rows / 2) / count * t.row, t.row);
    return t;
}

/* One state: thin steam, so that every table's answer is a pressure under the ceiling. */

static const double STEAM_T = 1000.0, STEAM_RHO = 1.0;

static uint64_t library_state(const void *argument, int engine)
{
    const packed *t = argument;
    return (engine == PLAIN ? mark_plain_state : wb_state)(peer_bits, t->kind, t->bytes, t->rows * t->row, STEAM_T, STEAM_RHO, 2);
}

static uint64_t peer_state_bits(const void *argument, int way)
{
    const packed *t = argument;
    state_ends r;
    take_way(way);
    peer_state(&r, t->kind, t->bytes, t->rows * t->row, STEAM_T, STEAM_RHO);
    return bits_of(r.pressure[0]);
}

static void measure_state(const packed *all, size_t count)
{
    packed t = of_terms(all, count);
    char name[32];
    snprintf(name, sizeof name, "one state, %zu term%s", count, count == 1 ? "" : "s");
    measure(&(work){name, 1, {{library_state, QUICK}, {library_state, PLAIN}, {peer_state_bits, 0}, {peer_state_bits, STOPS},
                              {peer_state_bits, ONCE}, {peer_state_bits, ONCE | STOPS}}, &t});
}

/* Pairs, with tolerances so wide that all are accepted: nothing is left out. */

static uint64_t library_pairs(const void *argument, int engine)
{
    const packed *t = argument;
    uint64_t total = 0;
    for (size_t i = 0; i < t->count; i++) {
        const double *p = t->pairs[i];
        total += (engine == PLAIN ? mark_plain_pair : wb_pair)(peer_bits, t->kind, t->bytes, t->rows * t->row, p[0], p[1], p[2],
                                                               1e6, 1e6, 2);
    }
    return total;
}

static uint64_t peer_pairs(const void *argument, int way)
{
    const packed *t = argument;
    uint64_t total = 0;
    take_way(way);
    for (size_t i = 0; i < t->count; i++) {
        const double *p = t->pairs[i];
        pair_ends r;
        peer_pair(&r, t->kind, t->bytes, t->rows * t->row, p[0], p[1], p[2]);
        total += bits_of(r.vapour_pressure[0]);
    }
    return total;
}

static void accepted(const packed *t)
{
    for (size_t i = 0; i < PAIRS; i++) {
        const double *p = t->pairs[i];
        if (wb_pair(peer_bits, t->kind, t->bytes, t->rows * t->row, p[0], p[1], p[2], 1e6, 1e6, 0) != 0) {
            printf("pair %zu of kind %d is not accepted\n", i, (int)t->kind);
            exit(1);
        }
    }
}

static void measure_pairs(const char *name, packed *t, size_t count)
{
    t->count = count;
    measure(&(work){name, count, {{library_pairs, QUICK}, {library_pairs, PLAIN}, {peer_pairs, 0}, {peer_pairs, STOPS},
                                  {peer_pairs, ONCE}, {peer_pairs, ONCE | STOPS}}, t});
}

static void measure_kind(packed *t)
{
    static const size_t counts[] = {1, 8, 38, 64};
    char name[32];
    snprintf(name, sizeof name, "%d bits, kind %d", peer_bits, (int)t->kind);
    measure_heading(name, (const char *const[SIDES]){"quick, ns", "plain, ns", "MPFR, ns", "MPFR stops, ns", "once, ns", "once stops, ns"});
    for (size_t i = 0; i < sizeof counts / sizeof *counts; i++)
        measure_state(t, counts[i]);
    accepted(t);
    snprintf(name, sizeof name, "one pair, %zu terms", t->rows);
    measure_pairs(name, t, 1);
    measure_pairs("one of 1,000 pairs", t, PAIRS);
}

static size_t read_file(const char *name, void *to, size_t most)
{
    FILE *file = fopen(name, "rb");
    size_t got = file ? fread(to, 1, most, file) : 0;
    if (file)
        fclose(file);
    return got;
}

static int read_kind(packed *t, const char *table, const char *pairs)
{
    t->rows = read_file(table, t->bytes, sizeof t->bytes) / t->row;
    return t->rows != 0 && read_file(pairs, t->pairs, sizeof t->pairs) == sizeof t->pairs;
}

int main(int count, char **arguments)
{
    static packed table5 = {.kind = 38, .row = 9}, table4 = {.kind = 58, .row = 12};
    if (count == 6)
        peer_bits = atoi(arguments[1]);
    if (count != 6 || (peer_bits != 32 && peer_bits != 53) || !read_kind(&table5, arguments[2], arguments[3])
        || !read_kind(&table4, arguments[4], arguments[5])) {
        fputs("usage: marks 32|53 TABLE5 PAIRS5 TABLE4 PAIRS4, 1,000 pairs each\n", stderr);
        return 2;
    }
    char name[32];
    snprintf(name, sizeof name, "%d bits", peer_bits);
    measure_heading(name, (const char *const[SIDES]){"library, ns", "MPFR, ns", "MPFR stops, ns"});
    measure_singles();
    measure_exponentials("exponential, up to 322 kg/m3", 1.0 / 1024, 322.0);
    measure_exponentials("exponential, from 322 kg/m3", 322.0, 1287.0); /* the loops of crates/marks take x below 64 */
    measure_kind(&table5);
    measure_kind(&table4);
    return 0;
}
