/* Answers the records of tests/gen_cards.py through the vapour card's C entry: one line of ten words for each.
 * Assumes whole records on standard input; ends with status 1 at anything else, and at a call that changes a byte of
 * its table. */
#include <string.h>

#include "records.h"
#include "waterbench.h"

enum { LONGEST_TABLE = 800 };

static const uint64_t choices[] = {0, 1, 2, 3, 4, 5, 6, 7, 8, UINT64_MAX};

int main(void)
{
    static uint8_t table[LONGEST_TABLE + 7], kept[LONGEST_TABLE + 7];
    uint64_t width;
    while (read_word(&width)) {
        size_t length = read_table(table, LONGEST_TABLE);
        double temperature = wb_double(word());
        double density = wb_double(word());
        memcpy(kept, table, sizeof table);
        for (size_t i = 0; i < sizeof choices / sizeof *choices; i++) {
            print_word(i == 0, wb_virial(width, table, length, temperature, density, choices[i]));
            if (memcmp(table, kept, sizeof table) != 0)
                broken("a call changed its table");
        }
        printf("\n");
    }
    return 0;
}
