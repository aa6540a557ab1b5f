/* Counts what a run reached: refusals, pieces, joins and strip edges of states; refusals of other cases. */
#ifndef HOST_REACH_H
#define HOST_REACH_H

#include "airstate.h"

/* An answer that the reference allows. */
void reach_count(const eas_answer *a);

/* Prints the counts; a failure for everything that no state reached. */
void reach_check(void);

/* Prints the counts of these numbers and counts one check each: a failure where a number was not reached. */
void reach_numbers(const char *title, const uint64_t *counts, const uint32_t *numbers, int count);

#endif
