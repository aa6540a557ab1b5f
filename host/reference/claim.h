/* Demand 3 on a fit: its distance from the exact one, and a temperature from its power of ten. */
#ifndef REFERENCE_CLAIM_H
#define REFERENCE_CLAIM_H

#include "fit.h"
#include "logarithm.h"

/* How far a fit may be from the exact one, in units of 10^-10. */
int64_t distance_allowed(fitted_property of);

/* Null where the claims hold for 128 terms, 400 and without end; else what fails. kelvin is the logarithm of T/T0, null
 * where nothing is claimed of a temperature. The exact fit and its whole millionths move one way as the terms grow, so
 * that every number of terms is covered. */
const char *fit_claim(fitted_property of, int64_t y, int64_t z, int64_t fit, ratio_logarithm *kelvin);

/* fit - exact fit in units of 10^-10, with the exponential for the series; 128 terms move it by far less than a double
 * shows. */
double fit_distance(fitted_property of, int64_t y, int64_t z, int64_t fit);

#endif
