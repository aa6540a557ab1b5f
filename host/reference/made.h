/* A sheet that a call makes of another one. */
#ifndef REFERENCE_MADE_H
#define REFERENCE_MADE_H

#include "sheet.h"

typedef struct {
    uint32_t number; /* 0, or why there is none; then length is 0. 14 depends on the room. */
    size_t length;
    uint8_t bytes[SHEET_MAX_BYTES + SHEET_MAX_RECORDS]; /* a result that is too long is written first, then refused */
} made_sheet;

/* Writes behind what stands there, a number high byte first. */
void write_number(made_sheet *out, uint64_t number, int bytes);
void write_bytes(made_sheet *out, const void *bytes, size_t n);

/* Refuses a result over 65,536 bytes with this number. */
void refuse_too_long(made_sheet *out, uint32_t number);

/* Null where a call gave this sheet in a room that begins at `written`; else what is wrong. */
const char *judge_made(const made_sheet *right, size_t room, eas_text got, const uint8_t *written);

#endif
