/* peer_bench PEER WIDTH KIND: the bench program's work by a peer.  Takes the table from terms.bin in the current folder and proposals from
   standard input, five f64s each, most significant byte first, and writes the bench program's line for each.  PEER is every or once, for
   MPFR with every term's own exponential or each different one taken once, all 257 terms of it; every-stop or once-stop, with the
   library's stop; or shortcut, at 32 bits and for kind 38.
   Assumes a sound table, and proposals that are accepted: it ends at the first that is not, but for the limits, which it does not ask. */
#include <stdio.h>
#include <stdlib.h>
#include <string.h>
#include "mpfr_equation.h"
#include "shortcut.h"

enum { LONGEST = 768, PROPOSAL = 5 };

static uint8_t table[LONGEST];
static size_t length;

static size_t read_table(void)
{
    FILE *file = fopen("terms.bin", "rb");
    size_t got = file ? fread(table, 1, sizeof table, file) : 0;
    if (file)
        fclose(file);
    return got;
}

static int read_proposal(double *five)
{
    uint8_t bytes[8 * PROPOSAL];
    if (fread(bytes, 1, sizeof bytes, stdin) != sizeof bytes)
        return 0;
    for (int i = 0; i < PROPOSAL; i++) {
        uint64_t w = 0;
        for (int k = 0; k < 8; k++)
            w = w << 8 | bytes[8 * i + k];
        memcpy(&five[i], &w, 8);
    }
    return 1;
}

static int passes(const double *gap, double tolerance)
{
    return gap[0] >= -tolerance && gap[1] <= tolerance;
}

static void put_line(unsigned long count, const pair_ends *r, const double *five)
{
    uint64_t ends[2];
    if (r->vapour_pressure[0] <= 0 || !passes(r->pressure_gap, five[3]) || !passes(r->gibbs_gap, five[4])
        || r->liquid_stiffness[0] <= 0 || r->vapour_stiffness[0] <= 0) {
        fprintf(stderr, "peer_bench: proposal %lu is not accepted\n", count);
        exit(1);
    }
    memcpy(ends, r->vapour_pressure, sizeof ends);
    printf("%lu 0 0 %016llx %016llx\n", count, (unsigned long long)ends[0], (unsigned long long)ends[1]);
}

int main(int count, char **arguments)
{
    if (count != 4) {
        fputs("usage: peer_bench every|every-stop|once|once-stop|shortcut 32|53 38|58\n", stderr);
        return 2;
    }
    int shortcut = strcmp(arguments[1], "shortcut") == 0;
    uint64_t kind = atoi(arguments[3]);
    peer_bits = atoi(arguments[2]);
    peer_once = strncmp(arguments[1], "once", 4) == 0;
    peer_stops = strstr(arguments[1], "-stop") != 0;
    length = read_table();
    double five[PROPOSAL];
    for (unsigned long i = 1; read_proposal(five); i++) {
        pair_ends r;
        if (shortcut)
            shortcut_pair(&r, table, length, five[0], five[1], five[2]);
        else
            peer_pair(&r, kind, table, length, five[0], five[1], five[2]);
        put_line(i, &r, five);
    }
    return 0;
}
