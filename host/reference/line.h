/* How an answer is shown: a line of the listing, and a plot mark. */
#ifndef REFERENCE_LINE_H
#define REFERENCE_LINE_H

#include "airstate.h"

enum { LINE_MAX_BYTES = 192 };

typedef struct {
    size_t length;
    char bytes[LINE_MAX_BYTES + 1];
} listing_line;

/* The line of a spelled name whose search gave this answer. */
listing_line line_of(const uint8_t *spelled, size_t m, const eas_answer *answer);

/* The mark of an answer: its value, of a pressure whole pascals, rounded down. Both numbers are below 2^53, so that a
 * double holds them exactly. */
eas_mark mark_of(const eas_answer *answer);

#endif
