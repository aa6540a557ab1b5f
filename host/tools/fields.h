/* A field as a person types it, in a text or on the command line: read as a kind or a quantity, shown in a message. */
#ifndef FIELDS_H
#define FIELDS_H

#include "decimal.h"
#include "kinds.h"
#include "rows.h"
#include "units.h"

/* A text that ends with a zero byte. */
field field_of(const char *text);

/* Without the spaces and tabs around it. */
field trimmed(field f);

/* For a message: about 60 bytes, those that cannot be shown as question marks. A later call writes over it. */
const char *shown(field f);

/* Whether it is this word, in either case. */
bool equals(field f, const char *word);

/* The kind that it names, by its number or by what is wanted; null where it names none. */
const kind_row *named_kind(field f);

/* How a quantity is given: in a unit, or in whole ones where it is null. */
typedef struct {
    const quantity *of;
    const unit *in;
    bool comma, round; /* whether a comma may stand for the point, and whether digits that are too fine are rounded */
} manner;

decimal_verdict read_quantity(field f, const manner *m, uint64_t *units);

/* What is wrong with a quantity that was not read, in words, which a later call writes over. */
const char *quantity_fault(decimal_verdict verdict, field f, const manner *m);

/* A value of the command line, in SI units; tells what is wrong with it. */
bool read_argument(const char *text, const quantity *q, uint64_t *units);

#endif
