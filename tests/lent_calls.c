/* Answers the records of tests/gen_lent.py through the C entries that are lent a slice of terms: one line of words for
 * each, the choices' values and then the slice.
 * Assumes whole records on standard input; ends with status 1 at anything else, at a call that leaves the slice another
 * way than the call before it, and at one that changes a byte of its table, of the guards about the slice, or between
 * the fields of a place that it leaves as it was. */
#include <string.h>

#include "records.h"
#include "waterbench.h"

enum { LONGEST_TABLE = 800, LARGEST_ROOM = 70, NUMBERS = 5, GUARD = 2, PLACE = 6 };

static const uint64_t choices[] = {0, 1, 2, 3, 4, 5, 6, UINT64_MAX};

_Static_assert(sizeof(wb_term) == PLACE * sizeof(uint64_t), "a place is six words");
_Static_assert(offsetof(wb_term, negative) == 4 * sizeof(uint64_t), "the sign is the fifth word's lowest byte");
_Static_assert(offsetof(wb_term, magnitude) == 5 * sizeof(uint64_t), "the magnitude is the sixth word");

/* A slice between two guards. */
struct block {
    wb_term terms[GUARD + LARGEST_ROOM + GUARD];
    size_t length;
};

struct input {
    uint64_t width, kind, function;
    uint8_t table[LONGEST_TABLE + 7];
    size_t length, room;
    double x[NUMBERS];
};

static uint64_t call(const struct input *in, wb_term *terms, uint64_t choice)
{
    const double *x = in->x;
    switch (in->function) {
    case 0:
        return wb_state_lent(in->width, in->kind, in->table, in->length, terms, in->room, x[0], x[1], choice);
    case 1:
        return wb_density_lent(in->width, in->kind, in->table, in->length, terms, in->room, x[0], x[1], x[2], x[3],
                               choice);
    case 2:
        return wb_pair_lent(in->width, in->kind, in->table, in->length, terms, in->room, x[0], x[1], x[2], x[3], x[4],
                            choice);
    }
    broken("no such function");
    return 0;
}

/* Every word differs from every other, the bytes between the fields are filled too. */
static void fill(struct block *block, size_t room)
{
    block->length = GUARD + room + GUARD;
    for (size_t i = 0; i < block->length; i++) {
        uint64_t words[PLACE];
        for (size_t j = 0; j < PLACE; j++)
            words[j] = (i * PLACE + j + 1) * UINT64_C(0x9e3779b97f4a7c15);
        memcpy(&block->terms[i], words, sizeof words);
    }
}

static int same(const wb_term *a, const wb_term *b)
{
    return a->c == b->c && a->factor == b->factor && a->d == b->d && a->t == b->t && a->negative == b->negative &&
           a->magnitude == b->magnitude;
}

/* Two calls must leave the same; what a call left alone must have all its bytes. */
static void hold(const struct block *after, const struct block *first, const struct block *before)
{
    for (size_t i = 0; i < before->length; i++) {
        int guard = i < GUARD || i >= before->length - GUARD;
        if (!same(&after->terms[i], &first->terms[i]))
            broken("two calls left the slice in two ways");
        if ((guard || same(&after->terms[i], &before->terms[i])) &&
            memcmp(&after->terms[i], &before->terms[i], sizeof(wb_term)) != 0)
            broken(guard ? "a call wrote outside of the slice" : "a call wrote between the fields");
    }
}

static void print_slice(const struct block *block)
{
    for (size_t i = GUARD; i < block->length - GUARD; i++) {
        const wb_term *term = &block->terms[i];
        const uint64_t fields[PLACE] = {term->c, term->factor, term->d, term->t, term->negative, term->magnitude};
        for (size_t j = 0; j < PLACE; j++)
            print_word(0, fields[j]);
    }
}

int main(void)
{
    static struct input in, kept;
    static struct block before, first, again;
    while (read_word(&in.width)) {
        in.kind = word();
        in.function = word();
        in.length = read_table(in.table, LONGEST_TABLE);
        in.room = word();
        if (in.room > LARGEST_ROOM)
            broken("a slice is too large");
        for (int i = 0; i < NUMBERS; i++)
            in.x[i] = wb_double(word());
        memcpy(&kept, &in, sizeof in);
        fill(&before, in.room);
        for (size_t i = 0; i < sizeof choices / sizeof *choices; i++) {
            struct block *block = i == 0 ? &first : &again;
            fill(block, in.room);
            print_word(i == 0, call(&in, block->terms + GUARD, choices[i]));
            hold(block, &first, &before);
            if (memcmp(&in, &kept, sizeof in) != 0)
                broken("a call changed its input");
        }
        print_slice(&first);
        printf("\n");
    }
    return 0;
}
