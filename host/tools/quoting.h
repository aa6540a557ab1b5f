/* Texts inside other texts: a field of a CSV text, a string of JSON. */
#ifndef QUOTING_H
#define QUOTING_H

#include <stddef.h>
#include <stdio.h>

/* A field of a text with this delimiter, quoted only where it must be: a quote, a delimiter, a line's end or a zero
 * byte in it, a space at an end, or a # at the start. A comma is quoted only where it is the delimiter. */
void write_field(FILE *out, char delimiter, const void *text, size_t n);

/* A string of JSON; null where the bytes are no UTF-8. */
void write_json(FILE *out, const void *text, size_t n);

#endif
