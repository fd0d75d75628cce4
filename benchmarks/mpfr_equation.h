/* Pressure, stiffness and Gibbs gap by the step rules, on MPFR (01, "The equation, step by step"; 02 h).
   Assumes a kind of 38 or 58, a sound table of that kind, T and densities in its ranges, and a liquid above the vapour. */
#ifndef MPFR_EQUATION_H
#define MPFR_EQUATION_H

#include <stddef.h>
#include "ends.h"
#include "mpfr_bracket.h"

/* Whether a phase takes the exponential of one c and one factor once, for all of its terms; else every term takes its own.  Powers are
   each term's own either way. */
extern int peer_once;

void peer_state(state_ends *r, uint64_t kind, const uint8_t *table, size_t length, double T, double rho);
void peer_pair(pair_ends *r, uint64_t kind, const uint8_t *table, size_t length, double T, double liquid, double vapour);

#endif
