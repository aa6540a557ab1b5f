/* The lines of a text of values: up to three fields, with or without quotes, split at commas, semicolons or tabs. */
#ifndef CHECKLIST_ROWS_H
#define CHECKLIST_ROWS_H

#include <stdbool.h>
#include <stddef.h>

typedef struct {
    const char *bytes;
    size_t length;
} field;

/* A field that a line does not have is empty. */
enum { NAME_FIELD, VALUE_FIELD, UNIT_FIELD, FIELDS };

typedef struct {
    unsigned line; /* from 1 */
    field fields[FIELDS];
} text_row;

typedef struct {
    text_row *rows;
    size_t count, room;
} text_rows;

/* Splits a text, whose bytes it changes, into its lines without the empty ones, and without a heading "name" and
 * "value". The text ends with a zero byte. */
text_rows split_rows(char *text, size_t n);

bool field_is(field f, const char *word);

#endif
