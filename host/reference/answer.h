/* Judges a whole answer for a state: allowed by document 01 and requests 3 and 4, or not. */
#ifndef REFERENCE_ANSWER_H
#define REFERENCE_ANSWER_H

#include "airstate.h"
#include "fit.h"
#include "kinds.h"

#define P0 UINT64_C(101330000000)
#define D0 UINT64_C(129200000000)
#define E0 UINT64_C(78408400)
#define T0 UINT64_C(273150000)

/* Ranges of document 01, Quantities. */
#define P_MIN UINT64_C(1)
#define P_MAX UINT64_C(100000000000000000)
#define D_MIN UINT64_C(12920)
#define D_MAX UINT64_C(129200000000000)
#define E_MIN UINT64_C(7840840)
#define E_MAX UINT64_C(1000000000000)

/* The largest G of a temperature that is shown; the least is 0. */
#define HIGHEST_FIT INT64_C(19600000000)

/* Null where the answer is allowed; else a short text that names what is wrong. Beyond each field's own rule this
 * checks the distances of demand 3 on accepted answers. */
const char *judge_answer(uint32_t kind, uint64_t first, uint64_t second, const eas_answer *answer);

/* Whether the first value of a known kind is in its range. */
bool first_in_range(uint32_t kind, uint64_t first);

/* Whether a fit is beyond the limits within which its property is shown. */
bool fit_beyond(fitted_property of, int64_t fit);

/* Null where two answers are equal field by field; else the field that differs. */
const char *answers_differ(const eas_answer *a, const eas_answer *b);

#endif
