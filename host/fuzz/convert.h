#ifndef FUZZ_CONVERT_H
#define FUZZ_CONVERT_H

#include "pair.h"

/* Aborts where a conversion of the sheet, either way, is not the plain one's or writes more than its result; where a
 * result does not go back to the sheet's bytes, or is told apart from the sheet by an answer. */
void check_conversions(query q);

#endif
