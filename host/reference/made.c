#include "made.h"

#include <string.h>

void write_number(made_sheet *out, uint64_t number, int bytes) {
    for (int i = bytes - 1; i >= 0; i--)
        out->bytes[out->length++] = (uint8_t)(number >> (8 * i));
}

void write_bytes(made_sheet *out, const void *bytes, size_t n) {
    memcpy(out->bytes + out->length, bytes, n);
    out->length += n;
}

void refuse_too_long(made_sheet *out, uint32_t number) {
    if (out->length <= SHEET_MAX_BYTES)
        return;
    out->length = 0;
    out->number = number;
}

const char *judge_made(const made_sheet *right, size_t room, eas_text got, const uint8_t *written) {
    uint32_t number = right->number != 0 ? right->number : room < right->length ? 14 : 0;
    if (got.number != number)
        return "the number";
    if (got.length != (number != 0 ? 0 : right->length))
        return "the length";
    return memcmp(written, right->bytes, got.length) != 0 ? "a byte" : NULL;
}
