/* A text of states to a sheet and back. */
#ifndef PACK_H
#define PACK_H

#include <stdbool.h>
#include <stdio.h>

#include "record.h"

/* How a text is packed. */
typedef struct {
    bool round;     /* numbers are rounded to their units */
    bool split;     /* into more than one sheet where it does not fit into one */
    bool version_2; /* even where no remark needs it */
} pack_options;

/* Both read and write whole files, tell every failure, and write nothing after one. 0 is success; pack then tells how
 * many states there are, how many the library will refuse, and how full the sheet is. */
int pack(const char *input, const char *output, const pack_options *how);
int unpack(const char *input, const char *output, bool si, bool spelled);

/* The same for a text at hand, which messages call by a name, and for an accepted sheet. */
int pack_text(const char *name, const char *text, size_t n, uint8_t sheet[SHEET_MOST], size_t *length);
void unpack_to(FILE *out, const uint8_t *sheet, bool si, bool spelled);

#endif
