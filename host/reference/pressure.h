/* Request 3: pressure from energy and density, by gamma. */
#ifndef REFERENCE_PRESSURE_H
#define REFERENCE_PRESSURE_H

#include "fit.h"

/* Whether the listing warns about these carried logarithms, or an exponent is near zero in a minus transition; in a
 * strip at either edge. */
bool pressure_warned(int64_t y, int64_t z);

/* Whether a rounded exponent of a minus transition is less than 0.05 from zero. */
bool exponent_near_zero(wide q);

/* Whether gamma is not above 1.01, or is 2 or more. */
bool gamma_beyond(int64_t gamma);

/* D·E·(gamma - 1) in micropascal, rounded down; energy in mJ/kg, density in 10^-11 kg/m3, gamma in units of 10^-10. */
wide pressure_value(uint64_t energy, uint64_t density, int64_t gamma);

#endif
