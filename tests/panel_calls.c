/* Answers the call records of tests/gen_calls.py through the C entries: one line of eight words for each.
 * Assumes whole records on standard input; ends with status 1 at anything else. */
#include "records.h"
#include "waterbench.h"

enum { LONGEST_TABLE = 800, NUMBERS = 5 };

static const uint64_t choices[] = {0, 1, 2, 3, 4, 5, 6, UINT64_MAX};

static uint64_t call(uint64_t width, uint64_t kind, uint64_t function, const uint8_t *table, size_t length,
                     const double *x, uint64_t choice)
{
    switch (function) {
    case 0:
        return wb_state(width, kind, table, length, x[0], x[1], choice);
    case 1:
        return wb_density(width, kind, table, length, x[0], x[1], x[2], x[3], choice);
    case 2:
        return wb_pair(width, kind, table, length, x[0], x[1], x[2], x[3], x[4], choice);
    }
    broken("no such function");
    return 0;
}

int main(void)
{
    uint64_t width;
    while (read_word(&width)) {
        uint8_t table[LONGEST_TABLE + 7];
        double x[NUMBERS];
        uint64_t kind = word();
        uint64_t function = word();
        size_t length = read_table(table, LONGEST_TABLE);
        for (int i = 0; i < NUMBERS; i++)
            x[i] = wb_double(word());
        for (size_t i = 0; i < sizeof choices / sizeof *choices; i++)
            print_word(i == 0, call(width, kind, function, table, length, x, choices[i]));
        printf("\n");
    }
    return 0;
}
