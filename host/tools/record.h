/* The records of an accepted sheet: their bytes as numbers and names, and back. */
#ifndef RECORD_H
#define RECORD_H

#include <stdint.h>

#include "airstate.h"

enum {
    SHEET_MOST = EAS_SHEET_ROOM,      /* bytes of the largest sheet */
    NAME_MOST = EAS_NAME_ROOM,        /* bytes of the longest name */
    SPELLED_MOST = EAS_SPELLING_ROOM, /* bytes of the longest spelling that the library writes */
    REMARK_MOST = EAS_REMARK_ROOM,    /* bytes of the longest remark */
    REMARK_SPELLED_MOST = 3 * REMARK_MOST,
    LINE_MOST = EAS_LINE_ROOM,          /* bytes of the longest listing line */
    HEAD = 7,                           /* bytes before the first record */
    RECORD_REST = 17,                   /* bytes of a record after its name, without a remark */
    RECORD_LEAST = 1 + 1 + RECORD_REST, /* bytes of the shortest record */
    RECORDS_MOST = (SHEET_MOST - HEAD) / RECORD_LEAST
};

/* A record of a sheet with its name spelled. In version 1, which has no remarks, an empty one stands behind the record.
 */
typedef struct {
    const uint8_t *name;
    size_t length;
    uint8_t kind;
    uint64_t first, second;
    const uint8_t *remark;
    size_t remark_length;
    char spelled[SPELLED_MOST + 1]; /* ends with a zero byte */
    size_t spelled_length;
} state;

/* The head of a sheet without records, of version 1 until a remark comes; returns its length. */
size_t put_head(uint8_t *sheet);

/* Writes a record behind a sheet of n bytes, whose room must be enough, and counts it; returns the new length. Its
 * remark is empty. */
size_t append_record(uint8_t *sheet, size_t n, const uint8_t *name, size_t length, uint8_t kind, uint64_t first,
                     uint64_t second);

/* Gives the last record, whose remark is empty, a remark of up to REMARK_MOST bytes; returns the new length. One that
 * is not empty makes a sheet of version 1 one of version 2. */
size_t append_remark(uint8_t *sheet, size_t n, const uint8_t *remark, size_t length);

/* How long a sheet of n bytes becomes by a record with a name and a remark of these lengths. */
size_t length_with(const uint8_t *sheet, size_t n, size_t name_length, size_t remark_length);

/* Writes the records of an accepted sheet into one of version 2, each with a remark of this many bytes, as many as fit;
 * returns its length. */
size_t put_with_remarks(uint8_t *to, const uint8_t *sheet, size_t length);

/* The version of a sheet, and how many records an accepted one has. */
unsigned sheet_version(const uint8_t *sheet);
unsigned record_count(const uint8_t *sheet);

/* The record at *at of an accepted sheet; *at moves past it and starts at HEAD. */
state next_state(const uint8_t *sheet, size_t *at);

/* Which record of an accepted sheet, from 0, has the name that starts at this place. */
unsigned record_at(const uint8_t *sheet, size_t start);

/* The library's answer for a state's spelled name. */
eas_answer search_state(const uint8_t *sheet, size_t n, const state *s);

/* Reads a spelled name into NAME_MOST bytes. */
eas_text read_spelled(const uint8_t *spelled, size_t n, uint8_t name[NAME_MOST]);

/* A state's remark in percent form, with a zero byte behind it; returns its length. */
size_t spell_remark(const state *s, char out[REMARK_SPELLED_MOST + 1]);

/* High byte first: count bytes as a number, and a number as count bytes. */
uint64_t get_number(const uint8_t *from, int count);
void put_number(uint8_t *to, int count, uint64_t number);

#endif
