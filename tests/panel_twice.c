/* Random calls of the C entries of the three checks, plain and with a lent slice of terms, and of the vapour card, each
 * made twice: the two answers must be the same, and the lent bytes as before.  Two slices that were the same must be so
 * afterwards, and where there is room for any table the answer must be the plain call's.
 *
 *   panel_twice CALLS DEEP [SEED]
 *
 * Every call has random bytes as its table and its slice, and random bit patterns as its doubles; its width is mostly
 * 32 or 53, its kind mostly 38 or 58, and either at times any number.  Of every DEEP calls one is made to get as far as
 * the equation: such a width and kind, a sound table of one to three terms and numbers in their ranges; 0 makes none of
 * these.  The vapour card takes no kind; its sound tables are those of kind 38.
 * Ends with a line 'N passed, M failed'. */
#include <inttypes.h>
#include <stdio.h>
#include <stdlib.h>

#include "waterbench.h"

enum { LONGEST_TABLE = 800, NUMBERS = 5, OLD_TERM = 9, NEW_TERM = 12, MOST_TERMS = 64, LARGEST_ROOM = 70 };

/* The plain calls are 0 to 2; those with a slice stand in the same order behind them, and then the vapour card. */
enum { WITH_A_SLICE = 3, CARD = 6, FUNCTIONS = 7 };

static uint64_t state;

/* splitmix64 */
static uint64_t next(void)
{
    uint64_t z = state += 0x9e3779b97f4a7c15;
    z = (z ^ z >> 30) * 0xbf58476d1ce4e5b9;
    z = (z ^ z >> 27) * 0x94d049bb133111eb;
    return z ^ z >> 31;
}

static double between(double low, double high)
{
    return low + (high - low) * ((double)(next() >> 11) / 9007199254740992.0);
}

struct call {
    uint8_t table[LONGEST_TABLE];
    size_t length;
    wb_term terms[LARGEST_ROOM];
    size_t room;
    double x[NUMBERS];
    uint64_t width, kind, function, choice;
};

static uint64_t sound_width(void)
{
    return next() % 2 ? 32 : 53;
}

static uint64_t sound_kind(uint64_t function)
{
    return function == CARD || next() % 2 ? WB_NINE_BYTES : WB_TWELVE_BYTES;
}

static size_t term_bytes(uint64_t kind)
{
    return kind == WB_NINE_BYTES ? OLD_TERM : NEW_TERM;
}

static int is_lent_a_slice(const struct call *c)
{
    return c->function >= WITH_A_SLICE && c->function < CARD;
}

static void any_call(struct call *c)
{
    c->function = next() % FUNCTIONS;
    c->kind = next() % 8 ? sound_kind(c->function) : next() >> next() % 64;
    /* one in four has a length that a table may have */
    c->length = next() % 4 ? next() % (LONGEST_TABLE + 1) : term_bytes(c->kind) * (1 + next() % 64);
    for (size_t i = 0; i < LONGEST_TABLE; i++)
        c->table[i] = (uint8_t)next();
    for (size_t i = 0; i < sizeof c->terms; i += sizeof(uint64_t)) {
        uint64_t word = next();
        memcpy((uint8_t *)c->terms + i, &word, sizeof word);
    }
    /* half of the slices have room for any table, the others often too little */
    if (next() % 2)
        c->room = MOST_TERMS + next() % (LARGEST_ROOM - MOST_TERMS + 1);
    else
        c->room = next() % (next() % 2 ? 4 : MOST_TERMS);
    for (int i = 0; i < NUMBERS; i++)
        c->x[i] = wb_double(next());
    c->width = next() % 8 ? sound_width() : next() >> c->length % 64;
    c->choice = next() % 8 ? next() % 9 : next();
}

/* c 2 bits, d 4 from 1, t 5 up to 24, sign 1, magnitude 60 up to 10^17 */
static void sound_old_term(uint8_t *bytes)
{
    uint64_t magnitude = 1 + next() % 100000000000000000;
    unsigned head = (unsigned)(next() % 4) << 10 | (unsigned)(1 + next() % 15) << 6 | (unsigned)(next() % 25) << 1;
    head |= (unsigned)(next() % 2);
    bytes[0] = (uint8_t)(head >> 4);
    bytes[1] = (uint8_t)(head << 4 | magnitude >> 56);
    for (int i = 0; i < 7; i++)
        bytes[2 + i] = (uint8_t)(magnitude >> (48 - 8 * i));
}

/* c 4 bits, factor 10, d 5 from 1, t 6, sign 1, magnitude 60 up to 10^17, 10 zeros; c and factor are 0 together */
static void sound_new_term(uint8_t *bytes)
{
    uint64_t magnitude = 1 + next() % 100000000000000000;
    uint64_t c = next() % 16;
    uint64_t factor = c == 0 ? 0 : 1 + next() % 1023;
    uint64_t head = c << 22 | factor << 12 | (1 + next() % 31) << 7 | (next() % 64) << 1 | next() % 2;
    uint64_t front = head << 38 | magnitude >> 22; /* the first 64 bits */
    uint64_t back = (magnitude & 0x3fffff) << 10;
    for (int i = 0; i < 8; i++)
        bytes[i] = (uint8_t)(front >> (56 - 8 * i));
    for (int i = 0; i < 4; i++)
        bytes[8 + i] = (uint8_t)(back >> (24 - 8 * i));
}

static void deep_call(struct call *c)
{
    any_call(c);
    c->width = sound_width();
    c->kind = sound_kind(c->function);
    int old = c->kind == WB_NINE_BYTES;
    c->length = term_bytes(c->kind) * (1 + next() % 3);
    for (size_t i = 0; i < c->length; i += term_bytes(c->kind))
        (old ? sound_old_term : sound_new_term)(c->table + i);
    if (c->function == CARD) {
        c->x[0] = between(273, 1123);
        c->x[1] = between(0.001, 55);
        return;
    }
    uint64_t check = c->function % WITH_A_SLICE;
    c->x[0] = between(check == 2 ? 273.16 : old ? 273 : 252, 1273);
    c->x[1] = between(322.5, old ? 1288 : 2576);
    c->x[2] = check == 1 ? between(0, old ? 1e9 : 25e9) : between(0.001, 321.5);
    c->x[3] = between(0, 1e6);
    c->x[4] = between(0, 1e6);
}

static uint64_t made(struct call *c)
{
    const double *x = c->x;
    switch (c->function) {
    case 0:
        return wb_state(c->width, c->kind, c->table, c->length, x[0], x[1], c->choice);
    case 1:
        return wb_density(c->width, c->kind, c->table, c->length, x[0], x[1], x[2], x[3], c->choice);
    case 2:
        return wb_pair(c->width, c->kind, c->table, c->length, x[0], x[1], x[2], x[3], x[4], c->choice);
    case 3:
        return wb_state_lent(c->width, c->kind, c->table, c->length, c->terms, c->room, x[0], x[1], c->choice);
    case 4:
        return wb_density_lent(c->width, c->kind, c->table, c->length, c->terms, c->room, x[0], x[1], x[2], x[3],
                               c->choice);
    case 5:
        return wb_pair_lent(c->width, c->kind, c->table, c->length, c->terms, c->room, x[0], x[1], x[2], x[3], x[4],
                            c->choice);
    default:
        return wb_virial(c->width, c->table, c->length, x[0], x[1], c->choice);
    }
}

/* The fields of two slices; what stands between them is not looked at. */
static int same_terms(const wb_term *a, const wb_term *b, size_t room)
{
    for (size_t i = 0; i < room; i++)
        if (a[i].c != b[i].c || a[i].factor != b[i].factor || a[i].d != b[i].d || a[i].t != b[i].t ||
            a[i].negative != b[i].negative || a[i].magnitude != b[i].magnitude)
            return 0;
    return 1;
}

/* Whether a call left all as it was before, but for the slice that it was lent. */
static int as_before(const struct call *before, struct call *after)
{
    if (is_lent_a_slice(before))
        memcpy(after->terms, before->terms, before->room * sizeof(wb_term));
    return memcmp(before, after, sizeof *before) == 0;
}

static int as_the_plain_call(const struct call *before, uint64_t value)
{
    static struct call plain;
    if (!is_lent_a_slice(before) || before->room < MOST_TERMS)
        return 1;
    memcpy(&plain, before, sizeof plain);
    plain.function -= WITH_A_SLICE;
    return made(&plain) == value;
}

int main(int count, char **words)
{
    static struct call call, again, kept;
    unsigned long calls = count > 2 ? strtoul(words[1], NULL, 10) : 0;
    unsigned long deep = count > 2 ? strtoul(words[2], NULL, 10) : 0;
    unsigned long passed = 0;

    state = count > 3 ? strtoull(words[3], NULL, 10) : 1;
    if (calls == 0) {
        fprintf(stderr, "usage: panel_twice CALLS DEEP [SEED]\n");
        return 1;
    }
    for (unsigned long i = 0; i < calls; i++) {
        if (deep != 0 && i % deep == 0)
            deep_call(&call);
        else
            any_call(&call);
        memcpy(&kept, &call, sizeof call);
        memcpy(&again, &call, sizeof call);
        uint64_t first = made(&call);
        uint64_t second = made(&again);
        if (first == second && same_terms(call.terms, again.terms, LARGEST_ROOM) && as_before(&kept, &call) &&
            as_before(&kept, &again) && as_the_plain_call(&kept, first))
            passed++;
        else
            printf("call %lu: %016" PRIx64 ", then %016" PRIx64 "\n", i, first, second);
    }
    printf("%lu passed, %lu failed\n", passed, calls - passed);
    return passed == calls ? 0 : 1;
}
