/* Two sheets that every call answers alike, the places of their names and their remarks aside. */
#ifndef HOST_PAIRS_H
#define HOST_PAIRS_H

#include "reference/sheet.h"
#include "sheets.h"

typedef struct {
    const tried_sheet *sheet[2];
    const parsed_sheet *parsed[2];
    const uint8_t *at[2]; /* where compare_pair lends them */
} sheet_pair;

/* Before the first pair. */
void pairs_open(void);

/* Compares every call that takes a sheet and writes none, by names, lists and places that are chosen at random. Each
 * sheet's remarks are its own. */
void compare_pair(random_source *r, sheet_pair *p);

#endif
