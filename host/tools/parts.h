/* What packing made: the sheets of a text that is split, and what the library will say of its states. */
#ifndef PARTS_H
#define PARTS_H

#include "columns.h"
#include "complaints.h"
#include "record.h"

enum { REFUSALS = 20 };

/* A full sheet. */
typedef struct {
    uint8_t *bytes;
    size_t n;
} sheet_part;

/* The full sheets, and how many states there are, by the number with which they are refused. */
typedef struct {
    sheet_part *full;
    size_t count, room;
    unsigned long states[REFUSALS];
} sheet_parts;

/* Keeps a copy of a full sheet; false where there is no memory. */
bool keep_part(sheet_parts *p, const uint8_t *bytes, size_t n);
void free_parts(sheet_parts *p);

/* Asks the library for a state's answer, and counts it. */
void count_state(sheet_parts *p, const row_state *s);

/* Writes the full sheets and the last one to FILE-1.eas, FILE-2.eas and so on, for an output FILE.eas. 0 is success. */
int write_parts(const sheet_parts *p, const char *output, const uint8_t *last, size_t n);

/* Tells how many states were packed, how many will be refused and why, and the bytes of the last sheet, which has n. */
void tell_packed(const sheet_parts *p, const complaints *told, size_t n);

#endif
