#ifndef FUZZ_GROWTH_H
#define FUZZ_GROWTH_H

#include "pair.h"

/* Aborts where a walk over the sheet is not the plain one's, its lines not those of eas_line; where a state that is
 * added makes another sheet than the plain one's or other bytes change; where a walk that goes on over that sheet gives
 * other lines or does not end where it would have. The spelled name is added, and others that the sheet lacks. */
void check_growth(query q);

#endif
