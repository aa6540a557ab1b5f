/* Run lists to try, and the listing that document 01 gives for one. */
#ifndef HOST_LISTS_H
#define HOST_LISTS_H

#include "reference/sheet.h"
#include "sheets.h"

enum { LIST_MAX_BYTES = 65536, LIST_ROOM = LIST_MAX_BYTES + 8, LISTING_ROOM = 16 << 20 };

typedef struct {
    size_t n;
    uint8_t bytes[LIST_ROOM];
} name_list;

typedef struct {
    size_t n;
    char bytes[LISTING_ROOM];
} listing_text;

/* Names of the sheet and others, now and then an empty line, with or without a newline at the end. */
void random_list(name_list *list, random_source *r, const parsed_sheet *parsed, const tried_sheet *sheet);

/* Case i of LIST_EDGES: a list at or beyond 65,536 bytes, of one long line or of short ones. */
enum { LIST_EDGES = 12 };
void edge_list(name_list *list, int i);

/* The listing of a sheet and a list. Answers come from the library, because a listing's logarithms and temperatures are
 * free answers; the rest is the reference's. */
void work_out_listing(listing_text *out, const parsed_sheet *parsed, const tried_sheet *sheet, const name_list *list);

#endif
