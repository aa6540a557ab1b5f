/* A value as a program showed it: a number with so many digits in a unit, or nothing. */
#ifndef CHECKLIST_VALUE_H
#define CHECKLIST_VALUE_H

#include "checklist_ask.h"
#include "checklist_rows.h"

typedef struct {
    bool blank;
    const char *unit;  /* the SI unit that it is in, null where the line says none */
    long double value; /* in that unit */
    long double digit; /* what one more in the last digit that was shown is */
} shown_value;

/* Reads the value and the unit of a line. Null, or why they cannot be read. */
const char *read_shown(const text_row *row, shown_value *v);

/* Whether it is in a unit of what is wanted of the state. */
bool is_in_unit_of(const shown_value *v, const named_state *s);

/* Whether it is the state's value, rounded or cut to the digits shown, or nothing where nothing is due. */
bool is_shown_right(const shown_value *v, const named_state *s);

#endif
