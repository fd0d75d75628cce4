/* Answers the records of tests/gen_texts.py through the C entries for text tables: one line of words for each.
 * Assumes what tests/blocks.h does. */
#include "blocks.h"
#include "waterbench.h"

static uint64_t call(uint64_t function, const uint8_t *lent, size_t length, uint8_t *out, size_t room, uint64_t choice)
{
    switch (function) {
    case 0:
        return wb_read_text(lent, length, out, room, choice);
    case 1:
        return wb_write_text(lent, length, out, room, choice);
    }
    broken("no such function");
    return 0;
}

int main(void)
{
    return answer_blocks(call);
}
