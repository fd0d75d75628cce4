/* Times sides that do the same work, in turn, several times; the shortest time of each counts, since noise only adds.
   Assumes that all sides give the same number when they do the same. */
#ifndef MEASURE_H
#define MEASURE_H

#include <stdint.h>

enum { SIDES = 6 };

/* A side does the work once a call, by the argument and in its own way, and gives a number that all its results enter. */
typedef struct {
    uint64_t (*call)(const void *argument, int way); /* null: there is no such side */
    int way;
} side;

/* One kind of work; the first side is the library's. */
typedef struct {
    const char *name;
    double operations; /* in one call */
    side sides[SIDES];
    const void *argument;
} work;

/* A heading with a title for each side, and a line for each kind of work: nanoseconds an operation for each side, and behind every side
   but the first what the first takes of it. */
void measure_heading(const char *name, const char *const titles[SIDES]);
void measure(const work *w);

#endif
