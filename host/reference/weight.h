/* Document 01, Weight: the ideal weight enclosed, and free answer two. Where B is divided by 1 - exp, the weight of a
 * minus transition (request 3), the same with 1 - S for 1 + S: 1/(1 - S) for an exponent that is not negative, for a
 * negative one 1 less that at its size, which is S/(S - 1). */
#ifndef REFERENCE_WEIGHT_H
#define REFERENCE_WEIGHT_H

#include <mpfr.h>
#include <stdbool.h>

#include "wide.h"

/* Numbers of series terms that are looked at. The ideal weight moves one way as the terms grow, so that a bound which
 * holds at 128 and without end holds at every number between. */
enum { TERMS_128, TERMS_400, WITHOUT_END, TERM_COUNTS };

enum { EXPONENT_DECIMALS = 10 };

/* Bounds of what depends on the number of terms. */
typedef struct {
    mpfr_t low[TERM_COUNTS], high[TERM_COUNTS];
} term_bounds;

void bounds_init(term_bounds *b);
void bounds_clear(term_bounds *b);

/* An exponent of q / 10^decimals in a plus or minus transition. */
typedef struct {
    bool minus;
    wide q;
    unsigned decimals;
} transition;

/* 10^10 times the ideal weight. At the first precision the bounds come from the exponential and a bound of the series'
 * rest; at every other one from the series itself, term by term. A minus transition's exponent is not 0. */
void weights_of(term_bounds *w, transition t, mpfr_prec_t precision);

/* Working precisions, each four times the one before, tried in order until a comparison is decided. At the last one the
 * bounds are closer together than two different values can be: a weight with 400 terms is a fraction whose denominator
 * has under 40,000 bits. What is still open there is an equality. */
enum { FIRST_WEIGHT_PRECISION = 128, LAST_WEIGHT_PRECISION = 131072 };

/* Whole weights. */
typedef struct {
    int64_t least, most;
} weight_range;

/* Those that are within a tolerance of the ideal weight for every number of terms from 128 up. A plus transition's are
 * from 0 to 10^10; a minus transition's may be negative or above one, and its exponent is 0.05 or more in size. */
weight_range weights_within(transition t, int64_t tolerance);

/* Free answer two, by the tolerance of request 4. */
enum { WEIGHT_TOLERANCE = 2 };
bool weight_allowed(int64_t weight, transition t);

#endif
