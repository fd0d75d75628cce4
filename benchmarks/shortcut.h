/* A pair of kind 38 at 32 bits by an unverified program that takes every shortcut: how fast the work could be without proofs.
   Assumes a sound table of nine-byte terms, T and densities in their ranges, and a liquid above the vapour. */
#ifndef SHORTCUT_H
#define SHORTCUT_H

#include <stddef.h>
#include <stdint.h>
#include "ends.h"

void shortcut_pair(pair_ends *r, const uint8_t *table, size_t length, double T, double liquid, double vapour);

#endif
