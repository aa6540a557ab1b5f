/* Document 01, State sheet, and request 5: the first refusal of a sheet, its records with their remarks, and a search
 * by spelled name. */
#ifndef REFERENCE_SHEET_H
#define REFERENCE_SHEET_H

#include "airstate.h"

/* A record has at least 19 bytes. */
enum { SHEET_MAX_BYTES = 65536, SHEET_MAX_RECORDS = (SHEET_MAX_BYTES - 7) / 19 };

typedef struct {
    uint32_t number;  /* 0, or 1 to 6, or 16; then count is 0 */
    uint64_t version; /* whatever it is; 0 where 1 or 2 comes before it */
    size_t count;
    eas_record records[SHEET_MAX_RECORDS];
    eas_part remarks[SHEET_MAX_RECORDS]; /* each record's; empty and behind the record in version 1 */
} parsed_sheet;

void sheet_parse(parsed_sheet *out, const uint8_t *sheet, size_t n);

/* The sheet's own refusal where it must be of this version: 3 for every other one. */
uint32_t sheet_refusal(const parsed_sheet *parsed, uint64_t version);

/* What a search finds; refused, every field but the number is 0. */
eas_record sheet_find(const parsed_sheet *parsed, const uint8_t *sheet, const uint8_t *spelled, size_t m);

/* The remark of the record that a search finds, refused as the search is. */
eas_part sheet_remark(const parsed_sheet *parsed, const uint8_t *sheet, const uint8_t *spelled, size_t m);

#endif
