/* States that stand in no sheet. */
#ifndef EVAL_H
#define EVAL_H

#include <stdbool.h>

/* Writes the rows of a text of states, each with its answer behind it; a row that cannot be read has the reason there.
 * Of a text that is no CSV, or whose headings cannot be used, no file is written. Tells every failure; 0 is success,
 * and every row was read. */
int eval_rows(const char *input, const char *output, bool round);

/* Writes the answer for one state, its values in SI units. */
int eval_state(const char *output, const char *kind, const char *first, const char *density);

#endif
