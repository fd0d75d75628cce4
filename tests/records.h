/* What the C programs behind tests/compare share: the fields of a record (tests/stream.py) and the words of a line.
 * Assumes whole records on standard input; ends with status 1 at anything else. */
#ifndef RECORDS_H
#define RECORDS_H

#include <inttypes.h>
#include <stddef.h>
#include <stdint.h>
#include <stdio.h>
#include <stdlib.h>

static inline void broken(const char *what)
{
    fprintf(stderr, "%s\n", what);
    exit(1);
}

/* One big-endian word; 0 at the end of the input. */
static inline int read_word(uint64_t *word)
{
    uint8_t bytes[8];
    size_t got = fread(bytes, 1, sizeof bytes, stdin);
    if (got == 0)
        return 0;
    if (got < sizeof bytes)
        broken("a word is cut short");
    *word = 0;
    for (size_t i = 0; i < sizeof bytes; i++)
        *word = *word << 8 | bytes[i];
    return 1;
}

static inline uint64_t word(void)
{
    uint64_t w;
    if (!read_word(&w))
        broken("a record is cut short");
    return w;
}

/* A table's length, and its bytes into a place that holds `most` and 7 more. */
static inline size_t read_table(uint8_t *table, size_t most)
{
    uint64_t length = word();
    if (length > most)
        broken("a table is too long");
    size_t padded = (length + 7) / 8 * 8;
    if (fread(table, 1, padded, stdin) != padded)
        broken("a table is cut short");
    return length;
}

/* The next word of a line; all but the first have a space before them. */
static inline void print_word(int first, uint64_t w)
{
    printf("%s%016" PRIx64, first ? "" : " ", w);
}

#endif
