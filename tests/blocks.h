/* What the C programs share that call entries with a lent buffer: a buffer between two guards, and the loop over
 * records of function, room and lent bytes (tests/gen_texts.py, tests/gen_convert.py).
 * Assumes whole records on standard input; ends with status 1 at anything else, at a call that leaves the lent block
 * another way than the call before it, and at one that changes a byte of its input. */
#ifndef BLOCKS_H
#define BLOCKS_H

#include <string.h>

#include "records.h"

enum { LONGEST_LENT = 4096, LARGEST_ROOM = 4096, GUARD = 8 };

static const uint64_t choices[] = {0, 1, 2, 3, UINT64_MAX};

enum { CHOICES = sizeof choices / sizeof *choices };

/* A buffer between two guards, filled with a pattern, so that every byte that a call writes is seen. */
struct block {
    uint8_t bytes[GUARD + LARGEST_ROOM + GUARD];
    size_t length;
};

/* One call of the function with this number. */
typedef uint64_t block_call(uint64_t function, const uint8_t *lent, size_t length, uint8_t *out, size_t room,
                            uint64_t choice);

static inline void fill(struct block *block, size_t room)
{
    block->length = GUARD + room + GUARD;
    for (size_t i = 0; i < block->length; i++)
        block->bytes[i] = (uint8_t)(37 * i + 11);
}

static inline void print_block(const struct block *block)
{
    for (size_t i = 0; i < block->length; i += 8) {
        uint64_t w = 0;
        for (size_t j = i; j < i + 8; j++)
            w = w << 8 | (j < block->length ? block->bytes[j] : 0);
        print_word(0, w);
    }
}

/* Answers every record by one line: the choices' values, then the block. */
static inline int answer_blocks(block_call *call)
{
    static uint8_t lent[LONGEST_LENT + 7], kept[LONGEST_LENT];
    static struct block first, again;
    uint64_t function;
    while (read_word(&function)) {
        uint64_t room = word();
        if (room > LARGEST_ROOM)
            broken("a buffer is too large");
        size_t length = read_table(lent, LONGEST_LENT);
        memcpy(kept, lent, length);
        for (int i = 0; i < CHOICES; i++) {
            struct block *block = i == 0 ? &first : &again;
            fill(block, room);
            print_word(i == 0, call(function, lent, length, block->bytes + GUARD, room, choices[i]));
            if (memcmp(block->bytes, first.bytes, first.length) != 0)
                broken("two calls left the block in two ways");
            if (memcmp(lent, kept, length) != 0)
                broken("a call changed its input");
        }
        print_block(&first);
        printf("\n");
    }
    return 0;
}

#endif
