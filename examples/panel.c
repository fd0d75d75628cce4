/* A small panel on the water bench: reads a table and proposals, and says of each plug in plain words what the pair
 * check answers; or says in a line what the vapour card has at a temperature and a density.
 *
 *   panel TERMS PROPOSALS [WIDTH [KIND]]
 *   panel TERMS --card TEMPERATURE DENSITY [WIDTH]
 *
 * Built by '(cd crates/panel && rt lib)' and 'gcc -Iinclude -o panel examples/panel.c crates/panel/out/libpanel.a';
 * 'tests/c examples/panel.c TERMS PROPOSALS' builds and runs it.
 *
 * TERMS is a file of packed terms or, where its name ends in .txt, a table typed as text; PROPOSALS has five doubles
 * for each plug, most significant byte first: temperature, liquid, vapour, pressure tolerance, Gibbs tolerance, as the
 * bench program takes them.  WIDTH is 32, which stands where it is missing, or 53; KIND is 38, which stands where it is
 * missing, or 58, for twelve-byte terms.  Any other gets the answer that the library has for it.  A table typed as text
 * is lengthened for 58.  The card takes nine-byte terms.  Ends with status 1 where a file can't be read or a typed
 * table is refused. */
#include <stdio.h>
#include <stdlib.h>
#include <string.h>

#include "waterbench.h"

enum { LONGEST_TABLE = 768, LONGEST_TEXT = 1664, NUMBERS = 5, BYTES = 8 * NUMBERS };

/* By the pair check's refusals, which have no number but these. */
static const char *const reasons[] = {
    [WB_WIDTH] = "the width is neither 32 nor 53",
    [WB_KIND] = "the kind is neither 38 nor 58",
    [WB_TABLE_LENGTH] = "the table of terms has a length that no table of its kind has",
    [WB_BROKEN_TERM] = "a term of the table breaks a rule",
    [WB_TEMPERATURE] = "the temperature is not between 273.16 and 1273 K",
    [WB_DENSITY] = "a density is not between 1/1024 and 1288 kg/m3, or 2576 for kind 58",
    [WB_TOLERANCE] = "a tolerance is not between 0 and 10^6",
    [WB_SIDES] = "the liquid is not above 322 kg/m3, or the vapour not below",
    [WB_CEILING] = "a pressure is above 10^9 Pa, or 25 * 10^9 for kind 58",
    [WB_VAPOUR_PRESSURE] = "the vapour does not push",
    [WB_PRESSURE_GAP] = "the two pressures are too far apart",
    [WB_GIBBS_GAP] = "the two Gibbs energies are too far apart",
    [WB_STIFFNESS] = "a phase does not push back when it is squeezed",
};

struct plug {
    double temperature, liquid, vapour, pressure_tolerance, gibbs_tolerance;
};

static double read_double(const uint8_t *bytes)
{
    uint64_t bits = 0;
    for (int i = 0; i < 8; i++)
        bits = bits << 8 | bytes[i];
    return wb_double(bits);
}

/* What every plug is held to. */
struct bench {
    uint64_t width, kind;
    uint8_t table[LONGEST_TABLE + 1]; /* one byte more, so that a longer file is seen to be longer */
    size_t length;
};

/* The packed terms of a typed table, lengthened where the kind is 58; 0 where it is refused. */
static int read_typed(struct bench *b, FILE *terms)
{
    uint8_t text[LONGEST_TEXT + 1]; /* one byte more, as for a table */
    uint8_t nine[LONGEST_TABLE];
    size_t length = fread(text, 1, sizeof text, terms);

    if (wb_read_text(text, length, nine, sizeof nine, WB_NUMBER) != WB_ACCEPTED) {
        uint64_t line = wb_read_text(text, length, nine, sizeof nine, WB_PLACE);
        fprintf(stderr, "panel: line %lu is no row of a table\n", (unsigned long)line);
        return 0;
    }
    b->length = wb_read_text(text, length, nine, sizeof nine, WB_WRITTEN);
    if (b->kind == WB_TWELVE_BYTES)
        b->length = wb_lengthen(nine, b->length, b->table, LONGEST_TABLE, WB_WRITTEN);
    else
        memcpy(b->table, nine, b->length);
    return 1;
}

static int is_text(const char *name)
{
    size_t length = strlen(name);
    return length >= 4 && strcmp(name + length - 4, ".txt") == 0;
}

static uint64_t ask(const struct bench *b, struct plug p, uint64_t choice)
{
    return wb_pair(b->width, b->kind, b->table, b->length, p.temperature, p.liquid, p.vapour,
                   p.pressure_tolerance, p.gibbs_tolerance, choice);
}

/* Exactly the digits, as the bench program takes them; 0, which is no width, for any other word. */
static uint64_t width_of(const char *word)
{
    if (strcmp(word, "32") == 0)
        return WB_COARSE;
    return strcmp(word, "53") == 0 ? WB_FINE : 0;
}

/* The same of the kind. */
static uint64_t kind_of(const char *word)
{
    if (strcmp(word, "38") == 0)
        return WB_NINE_BYTES;
    return strcmp(word, "58") == 0 ? WB_TWELVE_BYTES : 0;
}

/* What the answer's ends are, for the numbers that have ends. */
static void say_ends(uint64_t number, double lower, double upper)
{
    switch (number) {
    case WB_VAPOUR_PRESSURE:
        printf(": its pressure is between %.17g and %.17g Pa", lower, upper);
        break;
    case WB_PRESSURE_GAP:
        printf(": the gap is between %.6g and %.6g Pa", lower, upper);
        break;
    case WB_GIBBS_GAP:
        printf(": the gap is between %.6g and %.6g J/kg", lower, upper);
        break;
    case WB_STIFFNESS:
        printf(": its stiffness is between %.6g and %.6g Pa m3/kg", lower, upper);
        break;
    }
}

static void say(unsigned long count, const struct bench *b, struct plug p)
{
    uint64_t number = ask(b, p, WB_NUMBER);
    uint64_t place = ask(b, p, WB_PLACE);
    double lower = wb_double(ask(b, p, WB_LOWER));
    double upper = wb_double(ask(b, p, WB_UPPER));

    printf("plug %lu (%.6g K, %.8g and %.8g kg/m3): ", count, p.temperature, p.liquid, p.vapour);
    if (number == WB_ACCEPTED) {
        printf("accepted, with the vapour pressure between %.17g and %.17g Pa\n", lower, upper);
        return;
    }
    printf("refused, %u, %s", (unsigned)number, reasons[number]);
    if (place != 0)
        printf(" (term %lu)", (unsigned long)place);
    say_ends(number, lower, upper);
    printf("\n");
}

/* The card has the pair check's numbers, and limits of its own. */
static const char *card_reason(uint64_t number)
{
    switch (number) {
    case WB_TEMPERATURE:
        return "the temperature is not between 273 and 1123 K";
    case WB_DENSITY:
        return "the density is not between 1/1024 and 55 kg/m3";
    }
    return reasons[number];
}

/* One end of the card. */
static double card_end(const struct bench *b, double temperature, double density, uint64_t choice)
{
    return wb_double(wb_virial(b->width, b->table, b->length, temperature, density, choice));
}

static void say_card(const struct bench *b, double temperature, double density)
{
    uint64_t number = wb_virial(b->width, b->table, b->length, temperature, density, WB_NUMBER);
    uint64_t place = wb_virial(b->width, b->table, b->length, temperature, density, WB_PLACE);

    printf("vapour card (%.6g K, %.8g kg/m3): ", temperature, density);
    if (number == WB_ACCEPTED) {
        printf("B between %.17g and %.17g m3/kg, ", card_end(b, temperature, density, WB_B_LOWER),
               card_end(b, temperature, density, WB_B_UPPER));
        printf("C between %.17g and %.17g m6/kg2, ", card_end(b, temperature, density, WB_C_LOWER),
               card_end(b, temperature, density, WB_C_UPPER));
        printf("the polynomial's pressure between %.17g and %.17g Pa\n",
               card_end(b, temperature, density, WB_CARD_LOWER), card_end(b, temperature, density, WB_CARD_UPPER));
        return;
    }
    printf("refused, %u, %s", (unsigned)number, card_reason(number));
    if (place != 0)
        printf(" (term %lu)", (unsigned long)place);
    printf("\n");
}

/* The table of the named file; 0 where it can't be read or is refused. */
static int read_terms(struct bench *b, const char *name)
{
    FILE *terms = fopen(name, "rb");
    int sound = terms != NULL;

    if (!sound)
        fprintf(stderr, "panel: %s can't be read\n", name);
    else if (is_text(name))
        sound = read_typed(b, terms);
    else
        b->length = fread(b->table, 1, sizeof b->table, terms);
    if (terms != NULL)
        fclose(terms);
    return sound;
}

int main(int count, char **words)
{
    struct bench b = {.width = WB_COARSE, .kind = WB_NINE_BYTES};
    int card = count > 2 && strcmp(words[2], "--card") == 0;
    uint8_t bytes[BYTES];
    size_t got;

    if (card ? count < 5 || count > 6 : count < 3 || count > 5) {
        fprintf(stderr, "usage: panel TERMS PROPOSALS [WIDTH [KIND]], or panel TERMS --card TEMPERATURE DENSITY "
                        "[WIDTH]; 32 or 53, and 38 or 58\n");
        return 1;
    }
    if (card) {
        b.width = count > 5 ? width_of(words[5]) : WB_COARSE;
        if (!read_terms(&b, words[1]))
            return 1;
        say_card(&b, strtod(words[3], NULL), strtod(words[4], NULL));
        return 0;
    }
    b.width = count > 3 ? width_of(words[3]) : WB_COARSE;
    b.kind = count > 4 ? kind_of(words[4]) : WB_NINE_BYTES;
    FILE *proposals = fopen(words[2], "rb");
    if (proposals == NULL) {
        fprintf(stderr, "panel: %s can't be read\n", words[2]);
        return 1;
    }
    if (!read_terms(&b, words[1]))
        return 1;
    for (unsigned long plug = 1; (got = fread(bytes, 1, BYTES, proposals)) != 0; plug++) {
        struct plug p;
        if (got < BYTES) {
            printf("plug %lu: refused, 12, the proposal is cut short\n", plug);
            break;
        }
        p.temperature = read_double(bytes);
        p.liquid = read_double(bytes + 8);
        p.vapour = read_double(bytes + 16);
        p.pressure_tolerance = read_double(bytes + 24);
        p.gibbs_tolerance = read_double(bytes + 32);
        say(plug, &b, p);
    }
    fclose(proposals);
    return 0;
}
