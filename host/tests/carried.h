/* What the library's answers carry: states by their carried logarithms, and distances of carried fits. */
#ifndef HOST_CARRIED_H
#define HOST_CARRIED_H

#include "airstate.h"
#include "states.h"

/* Finds a state of a fitted property with these carried logarithms, and its answer; false where it finds none. */
bool find_state(fitted_property of, int64_t y, int64_t z, air_state *state, eas_answer *answer);

/* Tolerances of a weight: what request 4 allows, and what was allowed before. */
enum { ALLOWED, FORMER, TOLERANCES };
extern const int64_t tolerances[TOLERANCES];

/* Distances from the exact fit at a place in units of 10^-10, with their signs: of the carried fit, and between which
 * bounds those of all weights within each tolerance lie. */
typedef struct {
    double carried, least[TOLERANCES], most[TOLERANCES];
} place_distances;

place_distances distances_at(fitted_property of, int64_t y, int64_t z, int64_t fit);

#endif
