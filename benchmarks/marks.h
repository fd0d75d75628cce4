/* What the library hands to the benchmarks: the calls of crates/marks, and two of the panel's. */
#ifndef MARKS_H
#define MARKS_H

#include <stddef.h>
#include <stdint.h>

/* The loops take the width, 32 or 53 bits, and a list of six words each: two numbers, or a bracket's two ends.  A number is its sign, its
   significand, and its place with 262144 added.  Both give the sum of all results' significands and places. */

/* One operation (0 sum, 1 difference, 2 product, 3 quotient), up or (for 0) down. */
uint64_t marks_single(uint64_t width, uint64_t operation, uint64_t up, const uint64_t *list, size_t length);

/* The exponential of minus x, for brackets from 2^-57 to 64. */
uint64_t marks_exponential(uint64_t width, const uint64_t *list, size_t length);

/* A state and a pair by the plain engine, with the parameters of the panel's calls. */
uint64_t mark_plain_state(uint64_t width, uint64_t kind, const uint8_t *table, size_t length, double t, double rho, uint64_t choice);
uint64_t mark_plain_pair(uint64_t width, uint64_t kind, const uint8_t *table, size_t length, double t, double liquid, double vapour,
                         double pressure_tolerance, double gibbs_tolerance, uint64_t choice);

/* The panel's calls, which take the quick engine. */
uint64_t wb_state(uint64_t width, uint64_t kind, const uint8_t *table, size_t length, double t, double rho, uint64_t choice);
uint64_t wb_pair(uint64_t width, uint64_t kind, const uint8_t *table, size_t length, double t, double liquid, double vapour,
                 double pressure_tolerance, double gibbs_tolerance, uint64_t choice);

#endif
