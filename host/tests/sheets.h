/* Sheets and spellings to try: valid ones and damaged ones. */
#ifndef HOST_SHEETS_H
#define HOST_SHEETS_H

#include <stdbool.h>
#include <stddef.h>
#include <stdint.h>

#include "random.h"

enum { SHEET_ROOM = 2 * 65536, SPELLING_ROOM = 512 };

typedef struct {
    size_t n;
    uint8_t bytes[SHEET_ROOM];
} tried_sheet;

typedef struct {
    size_t n;
    uint8_t bytes[SPELLING_ROOM];
} tried_bytes;

/* A sheet that is written out: its head, of which version and count are a byte each, records, and its bytes with their
 * number. */
#define HEAD(version, count) "EAS\0" version "\0" count
#define RECORD(name, kind) "\1" name kind "PPPPPPPPDDDDDDDD"
#define SHEET(bytes) (const uint8_t *)(bytes), sizeof(bytes) - 1

/* A sheet that is valid, or has one or two damages; about a third are of version 2. `large` asks for one about as long
 * as a sheet may be: of the most records, or filled by remarks of 255 bytes. */
void random_sheet(tried_sheet *out, random_source *r, int large);
void random_sheet_of(tried_sheet *out, random_source *r, int version, int large);

/* The same of version 2 with empty remarks, at times but for one record's in a sheet that is not large. */
void random_bare_sheet(tried_sheet *out, random_source *r, int large);

/* A sheet of n bytes, 7 or enough for a record, with names of one byte as long as there are others, then of two; the
 * last name takes the bytes that are left over. Remarks are empty. Up to 65,536 bytes it is accepted. */
void fullest_sheet(tried_sheet *out, random_source *r, int version, size_t n);

/* The same of version 2 with remarks of 255 bytes; the last record's takes the bytes that are left over first. */
void remarked_sheet(tried_sheet *out, random_source *r, size_t n);

/* A sheet of version 1 with so many records, or as many as fit, whose names all fall into one chain of the library's
 * index; with `again` the last one has the first one's name and makes it 16. `absent` becomes a name of that chain that
 * no record has. */
void one_chain_sheet(tried_sheet *out, random_source *r, size_t count, bool again, tried_bytes *absent);

/* A sheet that differs in remarks only from one of version 2 within 65,536 bytes, and is within them too: other remarks
 * in some or all records, a remark that is cut at the end cut otherwise, the rest equal. True where one is cut so. */
bool change_remarks(tried_sheet *out, random_source *r, const tried_sheet *sheet);

/* A raw name of 0 to 45 bytes, most of them of 1 to 40. */
void random_name(tried_bytes *out, random_source *r);

/* A spelling of these bytes: each plain or in percent form of either case. Bytes that must be in percent form are. */
void random_spelling_of(tried_bytes *out, random_source *r, const uint8_t *name, size_t n);

/* Any spelling: of a name, damaged or not, or any bytes. */
void random_spelling(tried_bytes *out, random_source *r);

#endif
