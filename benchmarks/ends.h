/* What the peers hand out of a state and of a pair: two ends of a bracket each, lower before upper, as f64s of exactly that value,
   zero as +0.0. */
#ifndef ENDS_H
#define ENDS_H

typedef struct {
    double pressure[2], stiffness[2];
} state_ends;

typedef struct {
    double liquid_pressure[2], vapour_pressure[2], pressure_gap[2], gibbs_gap[2], liquid_stiffness[2], vapour_stiffness[2];
} pair_ends;

#endif
