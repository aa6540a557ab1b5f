#include "record.h"

#include <stdbool.h>
#include <string.h>

uint64_t get_number(const uint8_t *from, int count) {
    uint64_t number = 0;
    for (int i = 0; i < count; i++)
        number = number << 8 | from[i];
    return number;
}

void put_number(uint8_t *to, int count, uint64_t number) {
    for (int i = count - 1; i >= 0; i--, number >>= 8)
        to[i] = (uint8_t)number;
}

unsigned sheet_version(const uint8_t *sheet) {
    return (unsigned)get_number(sheet + 3, 2);
}

static void put_version(uint8_t *sheet, unsigned version) {
    put_number(sheet + 3, 2, version);
}

unsigned record_count(const uint8_t *sheet) {
    return (unsigned)get_number(sheet + 5, 2);
}

/* Whether records have a byte for the length of a remark. */
static bool has_remarks(const uint8_t *sheet) {
    return sheet_version(sheet) > 1;
}

state next_state(const uint8_t *sheet, size_t *at) {
    state s = {.length = sheet[*at], .name = sheet + *at + 1};
    const uint8_t *rest = s.name + s.length, *end = rest + RECORD_REST;
    s.kind = rest[0];
    s.first = get_number(rest + 1, 8);
    s.second = get_number(rest + 9, 8);
    s.remark_length = has_remarks(sheet) ? *end : 0;
    s.remark = end + has_remarks(sheet);
    s.spelled_length = eas_spell(s.name, s.length, (uint8_t *)s.spelled, SPELLED_MOST).length;
    *at = (size_t)(s.remark - sheet) + s.remark_length;
    return s;
}

size_t put_head(uint8_t *sheet) {
    memcpy(sheet, "EAS\0\1\0\0", HEAD);
    return HEAD;
}

size_t append_record(uint8_t *sheet, size_t n, const uint8_t *name, size_t length, uint8_t kind, uint64_t first,
                     uint64_t second) {
    uint8_t *rest = sheet + n + 1 + length;
    sheet[n] = (uint8_t)length;
    memcpy(sheet + n + 1, name, length);
    rest[0] = kind;
    put_number(rest + 1, 8, first);
    put_number(rest + 9, 8, second);
    if (has_remarks(sheet))
        rest[RECORD_REST] = 0;
    put_number(sheet + 5, 2, record_count(sheet) + 1u);
    return n + 1 + length + RECORD_REST + has_remarks(sheet);
}

/* Makes a sheet of version 1 one of version 2 with empty remarks; returns the new length. */
static size_t make_room_for_remarks(uint8_t *sheet, size_t n) {
    size_t at = HEAD;
    for (unsigned left = record_count(sheet); left > 0; left--, n++) {
        at += 1u + sheet[at] + RECORD_REST;
        memmove(sheet + at + 1, sheet + at, n - at);
        sheet[at++] = 0;
    }
    put_version(sheet, 2);
    return n;
}

size_t append_remark(uint8_t *sheet, size_t n, const uint8_t *remark, size_t length) {
    if (length == 0)
        return n;
    if (!has_remarks(sheet))
        n = make_room_for_remarks(sheet, n);
    sheet[n - 1] = (uint8_t)length;
    memcpy(sheet + n, remark, length);
    return n + length;
}

size_t length_with(const uint8_t *sheet, size_t n, size_t name_length, size_t remark_length) {
    bool first_remark = remark_length > 0 && !has_remarks(sheet);
    return n + 1 + name_length + RECORD_REST + (has_remarks(sheet) || first_remark) + remark_length +
           (first_remark ? record_count(sheet) : 0);
}

size_t put_with_remarks(uint8_t *to, const uint8_t *sheet, size_t length) {
    uint8_t remark[REMARK_MOST];
    size_t n = put_head(to), at = HEAD;
    memset(remark, 'r', sizeof remark);
    put_version(to, 2);
    for (unsigned left = record_count(sheet); left > 0; left--) {
        state s = next_state(sheet, &at);
        if (length_with(to, n, s.length, length) > SHEET_MOST)
            break;
        n = append_record(to, n, s.name, s.length, s.kind, s.first, s.second);
        n = append_remark(to, n, remark, length);
    }
    return n;
}

unsigned record_at(const uint8_t *sheet, size_t start) {
    size_t at = HEAD;
    unsigned i = 0;
    while (i + 1 < record_count(sheet) && next_state(sheet, &at).name != sheet + start)
        i++;
    return i;
}

eas_answer search_state(const uint8_t *sheet, size_t n, const state *s) {
    return eas_search(sheet, n, (const uint8_t *)s->spelled, s->spelled_length);
}

eas_text read_spelled(const uint8_t *spelled, size_t n, uint8_t name[NAME_MOST]) {
    return eas_read(spelled, n, name, NAME_MOST);
}

/* In pieces, since the library spells no more than a name at once. */
size_t spell_remark(const state *s, char out[REMARK_SPELLED_MOST + 1]) {
    size_t length = 0;
    for (size_t at = 0; at < s->remark_length; at += NAME_MOST) {
        size_t left = s->remark_length - at, piece = left < NAME_MOST ? left : NAME_MOST;
        length += eas_spell(s->remark + at, piece, (uint8_t *)out + length, REMARK_SPELLED_MOST - length).length;
    }
    out[length] = 0;
    return length;
}
