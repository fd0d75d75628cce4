/* Timing of several sides in turn (measure.h).  Time is the processor's, so that other programs on the machine count little. */
#define _POSIX_C_SOURCE 199309L
#include <stdio.h>
#include <stdlib.h>
#include <time.h>
#include "measure.h"

static const double SHORTEST = 1e7; /* nanoseconds that a timed stretch takes at least */
static const double ENOUGH = 2e9;   /* nanoseconds after which a kind of work is timed no more */
enum { MOST = 15, LEAST = 3 };      /* stretches of each side */

typedef struct {
    unsigned calls; /* in a stretch */
    double best;    /* nanoseconds a call, of the shortest stretch */
    uint64_t result;
} timed;

static double now(void)
{
    struct timespec t;
    clock_gettime(CLOCK_PROCESS_CPUTIME_ID, &t);
    return t.tv_sec * 1e9 + t.tv_nsec;
}

/* One stretch, or nothing for a side that is not there; gives the time it took. */
static double stretch(timed *t, const side *s, const void *argument)
{
    if (!s->call)
        return 0;
    double start = now();
    for (unsigned i = 0; i < t->calls; i++)
        t->result = s->call(argument, s->way);
    double took = now() - start;
    if (took / t->calls < t->best)
        t->best = took / t->calls;
    return took;
}

/* As many calls as a stretch needs; on an emulator this also translates the code before it counts. */
static void settle(timed *t, const side *s, const void *argument)
{
    *t = (timed){1, 1e300, 0};
    while (s->call && stretch(t, s, argument) < SHORTEST)
        t->calls *= 2;
}

void measure_heading(const char *name, const char *const titles[SIDES])
{
    printf("%-30s", name);
    for (int i = 0; i < SIDES && titles[i]; i++)
        printf(i == 0 ? " %12s" : " %16s  ratio", titles[i]);
    printf("\n");
}

void measure(const work *w)
{
    timed t[SIDES];
    for (int i = 0; i < SIDES; i++) {
        settle(&t[i], &w->sides[i], w->argument);
        if (w->sides[i].call && t[i].result != t[0].result) {
            printf("%s: the sides differ\n", w->name);
            exit(1);
        }
    }
    double spent = 0;
    for (int n = 1; n < LEAST || (n < MOST && spent < ENOUGH); n++)
        for (int i = 0; i < SIDES; i++)
            spent += stretch(&t[i], &w->sides[i], w->argument);
    printf("%-30s %12.1f", w->name, t[0].best / w->operations);
    for (int i = 1; i < SIDES; i++)
        if (w->sides[i].call)
            printf(" %16.1f %6.3f", t[i].best / w->operations, t[0].best / t[i].best);
    printf("\n");
    fflush(stdout);
}
