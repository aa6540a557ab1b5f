#ifndef JUDGE_H
#define JUDGE_H

#include "airstate.h"

/* Aborts where an answer's own logarithms, numbers and values contradict each other or the listing's doubles. */
void judge(uint8_t kind, uint64_t first, uint64_t second, const eas_answer *a);

/* Whether two answers are equal in every field. */
int same_answer(const eas_answer *a, const eas_answer *b);

#endif
