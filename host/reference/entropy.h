/* Document 01, Entropy. */
#ifndef REFERENCE_ENTROPY_H
#define REFERENCE_ENTROPY_H

#include "fit.h"

/* Demand 3: the largest distance from the exact entropy, in units of 0.0001. */
enum { ENTROPY_DISTANCE = 3 };

/* The value at carried logarithms within their limits, rounded as document 01 says, in units of 0.0001. */
wide entropy_value(int64_t y, int64_t z);

/* Whether Z is above its limit, in a strip above that of either edge. */
bool entropy_beyond(int64_t y, int64_t z);

/* Demand 3 on an entropy at its carried logarithms. */
bool entropy_near_exact(int64_t value, int64_t y, int64_t z);

#endif
