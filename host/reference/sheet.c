#include "sheet.h"

#include <stdbool.h>
#include <string.h>

#include "kinds.h"
#include "name.h"

static uint64_t high_byte_first(const uint8_t *bytes, int count) {
    uint64_t number = 0;
    for (int i = 0; i < count; i++)
        number = number << 8 | bytes[i];
    return number;
}

static bool seen_earlier(const parsed_sheet *parsed, const uint8_t *sheet, const eas_record *record) {
    for (size_t i = 0; i < parsed->count; i++) {
        const eas_record *other = &parsed->records[i];
        if (other->length == record->length && memcmp(sheet + other->start, sheet + record->start, record->length) == 0)
            return true;
    }
    return false;
}

/* Reads the remark that starts behind a record's values: nothing in version 1. False where bytes are missing. */
static bool parse_remark(eas_part *remark, uint64_t version, const uint8_t *sheet, size_t n) {
    if (version == 1)
        return true;
    if (remark->start == n)
        return false;
    remark->length = sheet[remark->start];
    remark->start++;
    return n - remark->start >= remark->length;
}

/* Reads the record at *at and moves past it; gives its refusal or 0. */
static uint32_t parse_record(parsed_sheet *out, const uint8_t *sheet, size_t n, size_t *at) {
    if (*at == n)
        return 4;
    eas_record record = {.start = *at + 1, .length = sheet[*at]};
    if (record.length == 0 || record.length > NAME_MAX_BYTES)
        return 5;
    if (n - record.start < record.length + 1 + 8 + 8)
        return 4;
    const uint8_t *rest = sheet + record.start + record.length;
    record.kind = rest[0];
    record.first = high_byte_first(rest + 1, 8);
    record.second = high_byte_first(rest + 9, 8);
    eas_part remark = {.start = record.start + record.length + 17};
    if (!parse_remark(&remark, out->version, sheet, n))
        return 4;
    if (!kind_known(record.kind))
        return 6;
    if (seen_earlier(out, sheet, &record))
        return 16;
    out->remarks[out->count] = remark;
    out->records[out->count++] = record;
    *at = remark.start + remark.length;
    return 0;
}

static uint32_t first_refusal(parsed_sheet *out, const uint8_t *sheet, size_t n) {
    if (n > SHEET_MAX_BYTES)
        return 1;
    if (n < 7 || memcmp(sheet, "EAS", 3) != 0)
        return 2;
    uint64_t announced = high_byte_first(sheet + 5, 2);
    out->version = high_byte_first(sheet + 3, 2);
    if (out->version != 1 && out->version != 2)
        return 3;
    size_t at = 7;
    for (uint64_t i = 0; i < announced; i++) {
        uint32_t number = parse_record(out, sheet, n, &at);
        if (number != 0)
            return number;
    }
    return at == n ? 0 : 4;
}

void sheet_parse(parsed_sheet *out, const uint8_t *sheet, size_t n) {
    out->version = 0;
    out->count = 0;
    out->number = first_refusal(out, sheet, n);
    if (out->number != 0)
        out->count = 0;
}

uint32_t sheet_refusal(const parsed_sheet *parsed, uint64_t version) {
    bool headed = parsed->number != 1 && parsed->number != 2;
    return headed && parsed->version != version ? 3 : parsed->number;
}

/* The refusal of a search, or 0 with the place of the record that it finds. */
static uint32_t search(const parsed_sheet *parsed, const uint8_t *sheet, const uint8_t *spelled, size_t m,
                       size_t *place) {
    if (parsed->number != 0)
        return parsed->number;
    read_name name = name_read(spelled, m);
    if (name.number != 0)
        return name.number;
    for (*place = 0; *place < parsed->count; ++*place) {
        const eas_record *record = &parsed->records[*place];
        if (record->length == name.length && memcmp(sheet + record->start, name.bytes, name.length) == 0)
            return 0;
    }
    return 9;
}

eas_record sheet_find(const parsed_sheet *parsed, const uint8_t *sheet, const uint8_t *spelled, size_t m) {
    size_t place;
    uint32_t number = search(parsed, sheet, spelled, m, &place);
    if (number != 0)
        return (eas_record){.number = number};
    return parsed->records[place];
}

eas_part sheet_remark(const parsed_sheet *parsed, const uint8_t *sheet, const uint8_t *spelled, size_t m) {
    size_t place;
    uint32_t number = search(parsed, sheet, spelled, m, &place);
    if (number != 0)
        return (eas_part){.number = number};
    return parsed->remarks[place];
}
