/* The water bench: three calls that check what a search for water's saturation pair proposes, the same three with a
 * slice of terms that is lent for the unpacked table, a card for thin vapour, two calls that turn a table typed as text
 * into packed terms and back, and two that turn packed terms of one kind into the other.
 *
 * Lend a table of packed terms, 1 to 64 of them, and give the numbers as doubles.  Any bytes and any doubles are
 * answered, NaN and infinities too; nothing has to be checked before a call, and no byte is written but in the slice
 * or the buffer that a call is lent for it.
 *
 * Each of the checks, and the card, names its width first, the count of bits of the numbers that it works with: 32
 * (WB_COARSE) or 53 (WB_FINE).  The rules are the same, and at either width the equation's own value lies between the
 * ends; at 53 bits the ends are about a million times closer together, and a call takes longer.  Take 53 where a gauge
 * is finer than the 32-bit ends: in cold water the pressure gap of a pair is more than 1,000 Pa wide at 32 bits
 * (docs/TOLERANCES.md).  Where both are close enough, 32 is the quicker one.
 *
 * Behind the width each of the checks names the kind of its table: 38 (WB_NINE_BYTES) or 58 (WB_TWELVE_BYTES), after
 * the 38- and the 58-row table of the paper.  A term is the coefficient times delta^d times tau^t, with
 * delta = density/322 and tau = 647.14/T, and for c of 1 or more times the exponential of minus the factor times
 * delta^c.  Its fields, most significant bit first, and what each kind takes:
 *
 *                       WB_NINE_BYTES                  WB_TWELVE_BYTES
 *   c                   2 bits                         4 bits
 *   factor              none: it is 1                  10 bits, in hundredths; 0 exactly if c is 0
 *   d                   4 bits, from 1 on              5 bits, from 1 on
 *   t                   5 bits, up to 24               6 bits
 *   sign                1 bit, set for negative        the same
 *   magnitude           60 bits, 1 to 10^17, in units of 10^-16; the same
 *   spare               none                           10 bits, all zero
 *   table               9 to 576 bytes, in nines       12 to 768 bytes, in twelves
 *   T                   273 to 1273 K                  252 to 1273 K; for wb_pair both take 273.16 to 1273 K
 *   density             1/1024 to 1288 kg/m3           1/1024 to 2576 kg/m3
 *   target, ceiling     10^9 Pa                        25 * 10^9 Pa
 *
 * A call hands back ONE value of the answer, by a choice:
 *   WB_NUMBER  0 is accepted, anything else is a refusal's number (below)
 *   WB_PLACE   for a term of the table its place, for a row of a text its line, counted from 1; else 0
 *   WB_LOWER, WB_UPPER            the two ends, as the bits of a double: wb_double turns them into one
 *   WB_STIFFNESS_LOWER, .._UPPER  the state sheet's last two ends; the two checks have none
 *   WB_B_LOWER to WB_CARD_UPPER   the vapour card's six ends
 *   WB_WRITTEN                    the four calls that write have no ends, but how many bytes they wrote
 * Any other choice, or a value that the answer does not have, gives 0.
 *
 * Link with libpanel.a (x86-64).  The same call with the same input always gives the same value, and leaves the same
 * bytes in the buffer; so a second call for another choice writes them again. */
#ifndef WATERBENCH_H
#define WATERBENCH_H

#include <stddef.h>
#include <stdint.h>
#include <string.h>

enum wb_width {
    WB_COARSE = 32,
    WB_FINE = 53
};

enum wb_kind {
    WB_NINE_BYTES = 38,
    WB_TWELVE_BYTES = 58
};

enum wb_choice {
    WB_NUMBER = 0,
    WB_PLACE = 1,
    WB_LOWER = 2,
    WB_UPPER = 3,
    WB_STIFFNESS_LOWER = 4,
    WB_STIFFNESS_UPPER = 5,
    WB_B_LOWER = 2,
    WB_B_UPPER = 3,
    WB_C_LOWER = 4,
    WB_C_UPPER = 5,
    WB_CARD_LOWER = 6,
    WB_CARD_UPPER = 7,
    WB_WRITTEN = 2
};

enum wb_number {
    WB_ACCEPTED = 0,
    WB_TABLE_LENGTH = 1,    /* the table has no length of its kind (above) */
    WB_BROKEN_TERM = 2,     /* a term breaks a rule of its kind; WB_PLACE says which */
    WB_TEMPERATURE = 3,     /* T is outside the kind's range; wb_pair: not 273.16 to 1273; wb_virial: not 273 to 1123 */
    WB_DENSITY = 4,         /* a density is outside the kind's range; wb_virial: not 1/1024 to 55 kg/m3 */
    WB_TARGET = 5,          /* the target pressure is not 0 to the kind's 10^9 or 25 * 10^9 Pa */
    WB_TOLERANCE = 6,       /* a tolerance is not 0 to 10^6 */
    WB_SIDES = 7,           /* the liquid is not above 322 kg/m3, or the vapour not below */
    WB_CEILING = 8,         /* a pressure's upper end is above the kind's 10^9 or 25 * 10^9 Pa */
    WB_PRESSURE_GAP = 9,    /* the pressures are too far apart; the ends are the gap's */
    WB_GIBBS_GAP = 10,      /* the Gibbs energies are too far apart; the ends are the gap's */
    WB_STIFFNESS = 11,      /* a phase does not push back when squeezed; the ends are its stiffness */
    WB_TEXT_ROW = 16,       /* wb_read_text: a row is bad, or there is a 65th; WB_PLACE is its line */
    WB_NO_SPELLING = 17,    /* wb_write_text: a term can't be typed as a row; WB_PLACE says which */
    WB_NO_ROOM = 18,        /* the calls that write: the output is longer than the lent buffer */
    WB_WIDTH = 19,          /* the width is neither 32 nor 53 */
    WB_SLICE = 20,          /* the .._lent calls: the lent slice holds fewer terms than the table */
    WB_VAPOUR_PRESSURE = 21, /* the vapour's pressure has no lower end above 0; the ends are its pressure's */
    WB_NO_OLD_FORM = 22,    /* wb_shorten: nine bytes can't say a term; WB_PLACE says which */
    WB_KIND = 29            /* the kind is neither 38 nor 58 */
};

/* A term of an unpacked table: its fields as the packed term has them, the factor of a nine-byte term 100, or 0 where
 * c is 0.  `negative` is 0 or 1. */
typedef struct {
    uint64_t c;
    uint64_t factor;
    uint64_t d;
    uint64_t t;
    uint8_t negative;
    uint64_t magnitude;
} wb_term;

#ifdef __cplusplus
extern "C" {
#endif

/* The state sheet: what the equation gives at a temperature (K) and a density (kg/m3).
 * The ends are the pressure's (Pa), then those of the stiffness, pressure by density at fixed temperature
 * (Pa m3/kg); a refused sheet has zeros.  Refusals: 19, 29, 1 to 4 and 8, in this order. */
uint64_t wb_state(uint64_t width, uint64_t kind, const uint8_t *table, size_t table_bytes, double temperature,
                  double density, uint64_t choice);

/* The density check: has this density, at this temperature, the target pressure (Pa) to within the tolerance (Pa), and
 * does it push back?  Accepted: the ends are the pressure's.  Refusals: 19, 29, 1 to 6, 8, 9 and 11, in this order. */
uint64_t wb_density(uint64_t width, uint64_t kind, const uint8_t *table, size_t table_bytes, double temperature,
                    double density, double target, double tolerance, uint64_t choice);

/* The pair check: are these two densities a saturation pair at this temperature, to within a pressure tolerance (Pa)
 * and a Gibbs tolerance (J/kg), do both phases push back, and is the vapour's pressure above 0?  Accepted: the ends are
 * the vapour's pressure.
 * Liquid and vapour balance stably only from the triple point on, so T starts at the fraction 27316/100: the double
 * 273.16 is the first that is not refused with 3.  Refusals: 19, 29, 1 to 4, 6 to 8, 21, 9 to 11, in this order. */
uint64_t wb_pair(uint64_t width, uint64_t kind, const uint8_t *table, size_t table_bytes, double temperature,
                 double liquid, double vapour, double pressure_tolerance, double gibbs_tolerance, uint64_t choice);

/* The same three checks with a lent slice of terms.  They answer what the calls above answer, but for 20, right behind
 * 19, 29, 1 and 2: the slice holds fewer terms than the table.  On 19, 29, 1, 2 and 20 the slice stays as it is; on
 * every other number, accepted or refused, the table's terms stand in it in order, and the places behind them stay.
 * 64 terms are room for any table.  `negative` has to be 0 or 1 in each place that is lent: memory that is set to zero
 * will do.  The calls above take a slice of 64 terms of their own, and are as quick. */
uint64_t wb_state_lent(uint64_t width, uint64_t kind, const uint8_t *table, size_t table_bytes, wb_term *terms,
                       size_t terms_count, double temperature, double density, uint64_t choice);

uint64_t wb_density_lent(uint64_t width, uint64_t kind, const uint8_t *table, size_t table_bytes, wb_term *terms,
                         size_t terms_count, double temperature, double density, double target, double tolerance,
                         uint64_t choice);

uint64_t wb_pair_lent(uint64_t width, uint64_t kind, const uint8_t *table, size_t table_bytes, wb_term *terms,
                      size_t terms_count, double temperature, double liquid, double vapour, double pressure_tolerance,
                      double gibbs_tolerance, uint64_t choice);

/* The vapour card, for thin vapour: the second and the third virial coefficient at a temperature (K), and the pressure
 * of their polynomial at a density (kg/m3), from a table of nine-byte terms; it names no kind.  With tau = 647.14/T
 *   B is the sum of coefficient times tau^t over the terms with d = 1, divided by 322;
 *   C is 2 times (that sum over d = 2, less that sum over d = 1 and c = 1), divided by 322 * 322;
 *   the pressure is density * R * T * (1 + B * density + C * density^2), with R = 461.51805 J/(kg K).
 * The ends are those of B (m3/kg), of C (m6/kg2) and of the pressure (Pa): WB_B_LOWER to WB_CARD_UPPER.  Each of the
 * three lies between its ends; the pressure is the polynomial's and not the full equation's, which is wb_state's.
 * T goes from 273 to 1123 K, the density from 1/1024 to 55 kg/m3.  Refusals: 19, 1 to 4, in this order; a refused card
 * has zeros.  There is no ceiling, and so no 8. */
uint64_t wb_virial(uint64_t width, const uint8_t *table, size_t table_bytes, double temperature, double density,
                   uint64_t choice);

/* Reading: a table typed as text becomes packed terms of nine bytes.  The text has 1 to 64 rows, each ended by a line
 * feed:
 *     3 5 15 -0.1216139400e-1
 * c (0 to 3), d (1 to 15) and t (0 to 24) without leading zeros, then the coefficient: a minus where needed, "0.", ten
 * digits of which the first is not zero, "e" and a power of ten from -6 to 1.  One space stands between the fields, and
 * a plus nowhere.
 * Accepted: nine bytes a row stand at the front of the lent buffer, WB_WRITTEN says how many, and the bytes behind them
 * are as before.  576 bytes are room for any table.
 * Refusals: 16, then 18; the buffer stays as it was.  With 16 WB_PLACE is the line of the first bad row: 1 for an empty
 * text, 65 for anything behind 64 rows.  Text behind the last line feed is a bad row.
 * The buffer must not overlap the text. */
uint64_t wb_read_text(const uint8_t *text, size_t text_bytes, uint8_t *out, size_t out_bytes, uint64_t choice);

/* Writing: packed terms of nine bytes become the text that wb_read_text reads back to the same bytes.
 * Accepted: the text stands at the front of the lent buffer, without a zero byte at its end, WB_WRITTEN says how many
 * bytes it has, and those behind them are as before.  1,664 bytes are room for any table.
 * Refusals: 1, 2, 17, then 18; the buffer stays as it was.  WB_PLACE is the place of the first broken term (2), or of
 * the first one that no row says (17): its coefficient has more than ten digits, or lies outside those powers.
 * The buffer must not overlap the table. */
uint64_t wb_write_text(const uint8_t *table, size_t table_bytes, uint8_t *out, size_t out_bytes, uint64_t choice);

/* Lengthening: a table of nine-byte terms becomes one of twelve-byte terms, each with the factor 100 (1), or 0 where c
 * is 0.  wb_shorten gives the same bytes back.
 * Accepted: the terms stand at the front of the lent buffer, WB_WRITTEN says how many bytes they have, and those behind
 * them are as before.  768 bytes are room for any table.
 * Refusals: 1, 2, then 18; the buffer stays as it was.  The buffer must not overlap the table. */
uint64_t wb_lengthen(const uint8_t *table, size_t table_bytes, uint8_t *out, size_t out_bytes, uint64_t choice);

/* Shortening: a table of twelve-byte terms becomes one of nine-byte terms.  A term goes back exactly if c is at most 3,
 * the factor 100, or 0 for c = 0, d at most 15 and t at most 24.
 * Accepted: as for wb_lengthen.  576 bytes are room for any table.
 * Refusals: 1 and 2 by the rules of twelve-byte terms, 22, then 18; the buffer stays as it was.  With 22 WB_PLACE is
 * the place of the first term that does not go back.  The buffer must not overlap the table. */
uint64_t wb_shorten(const uint8_t *table, size_t table_bytes, uint8_t *out, size_t out_bytes, uint64_t choice);

/* An end as a double. */
static inline double wb_double(uint64_t bits)
{
    double value;
    memcpy(&value, &bits, sizeof value);
    return value;
}

#ifdef __cplusplus
}
#endif
#endif
