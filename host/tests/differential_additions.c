/* Additions and steps: the order of their refusals, and lengths around the limit. Other sheets of this program are
 * given to them too, by compare_growth. */
#include <inttypes.h>
#include <string.h>

#include "differential.h"
#include "growth.h"
#include "length.h"
#include "tally.h"

enum { ADDITIONS_PART = 25, LONG_BYTES = 70000 };

#define TEN "0123456789"
#define FORTY TEN TEN TEN TEN

/* Sheets with their number for an addition and for a walk: where several apply the first one stands. An accepted one
 * has the records `a` and `b`, or `a` alone. */
static const struct {
    const uint8_t *bytes;
    size_t n;
    uint32_t added, walked;
} fixed[] = {
    {SHEET(HEAD("\2", "\1") RECORD("a", "\1") "\0"), 0, 0},
    {SHEET(HEAD("\2", "\1") RECORD("a", "\1") "\3new"), 0, 0},
    {SHEET(HEAD("\2", "\2") RECORD("a", "\1") "\24" RECORD("n", "\1") "\0" RECORD("b", "\3") "\1x"), 0, 0},
    {SHEET(HEAD("\1", "\1") RECORD("a", "\1")), 3, 0},
    {SHEET(HEAD("\1", "\2") RECORD("a", "\1") RECORD("b", "\2")), 3, 0},
    /* 2 before 3 and what stands behind */
    {SHEET(""), 2, 2},
    {SHEET("EAS\0\3\0"), 2, 2},
    {SHEET("EAT\0\3\0\0"), 2, 2},
    {SHEET("EAT\0\1\0\1"), 2, 2},
    {SHEET("EAT\0\2\0\1" RECORD("a", "\4") "\0"), 2, 2},
    /* 3 before each of 4, 5, 6 and 16 */
    {SHEET(HEAD("\0", "\1")), 3, 3},
    {SHEET(HEAD("\3", "\1")), 3, 3},
    {SHEET("EAS\1\2\0\1"), 3, 3},
    {SHEET("EAS\2\0\0\0"), 3, 3},
    {SHEET(HEAD("\1", "\1")), 3, 4},
    {SHEET(HEAD("\3", "\1") "\0"), 3, 3},
    {SHEET(HEAD("\1", "\1") "\0"), 3, 5},
    {SHEET(HEAD("\3", "\1") RECORD("a", "\4") "\0"), 3, 3},
    {SHEET(HEAD("\1", "\1") RECORD("a", "\4")), 3, 6},
    {SHEET(HEAD("\3", "\2") RECORD("a", "\1") "\0" RECORD("a", "\1") "\0"), 3, 3},
    {SHEET(HEAD("\1", "\2") RECORD("a", "\1") RECORD("a", "\1")), 3, 16},
    /* in a record 5 before 4, that before 6, 6 before 16; an earlier record's before a later one's */
    {SHEET(HEAD("\2", "\1")), 4, 4},
    {SHEET(HEAD("\2", "\1") "\0\1"), 5, 5},
    {SHEET(HEAD("\2", "\1") "\51a"), 5, 5},
    {SHEET(HEAD("\2", "\1") "\1a\4"), 4, 4},
    {SHEET(HEAD("\2", "\1") RECORD("a", "\4")), 4, 4},
    {SHEET(HEAD("\2", "\1") RECORD("a", "\4") "\0"), 6, 6},
    {SHEET(HEAD("\2", "\1") RECORD("a", "\1") "\2x"), 4, 4},
    {SHEET(HEAD("\2", "\1") RECORD("a", "\1") "\0\0"), 4, 4},
    {SHEET(HEAD("\2", "\2") RECORD("a", "\1") "\0" RECORD("a", "\1") "\0"), 16, 16},
    {SHEET(HEAD("\2", "\2") RECORD("a", "\1") "\0" RECORD("a", "\1")), 4, 4},
    {SHEET(HEAD("\2", "\2") RECORD("a", "\1") "\0" RECORD("a", "\4") "\0"), 6, 6},
    {SHEET(HEAD("\2", "\2") RECORD("a", "\4") "\0\0"), 6, 6},
    {SHEET(HEAD("\2", "\3") RECORD("a", "\1") "\0" RECORD("a", "\1") "\0\0"), 16, 16},
};

/* The first number of an order that applies; those that do not are 0. */
static uint32_t first_of(const uint32_t *numbers, size_t count) {
    uint32_t first = 0;
    for (size_t i = 0; first == 0 && i < count; i++)
        first = numbers[i];
    return first;
}

/* Every spelling, kind and room with a sheet whose own number is known, and whether `new` would make it too long. A
 * name of one byte would make a shorter sheet, but the only one that is spelled here is there already. */
static void compare_order(const growing_sheet *s, uint32_t own, bool full) {
    static const struct {
        const char *spelled;
        uint32_t wrong, present;
    } names[] = {{"new", 0, 0}, {"%6E%65%77", 0, 0}, {"a", 0, 16},      {"%61", 0, 16}, {"new%", 7, 0},
                 {"a/", 7, 0},  {"", 8, 0},          {FORTY "1", 8, 0}, {"%4", 7, 0},   {FORTY "1/", 7, 0}};
    static const uint32_t kinds[] = {1, 2, 3, 0, 4, 257, UINT32_MAX};
    static made_sheet made;
    const size_t length = s->sheet->n + 22, rooms[] = {0, length - 1, length, length + 60};
    for (size_t i = 0; i < LENGTH(names) * LENGTH(kinds) * LENGTH(rooms); i++) {
        size_t room = rooms[i % LENGTH(rooms)], name = i / LENGTH(rooms) % LENGTH(names);
        typed_state typed = typed_as(names[name].spelled, kinds[i / LENGTH(rooms) / LENGTH(names)]);
        const uint32_t order[] = {
            own,           names[name].wrong,      typed.kind >= 1 && typed.kind <= 3 ? 0 : 6, names[name].present,
            full ? 19 : 0, room < length ? 14 : 0,
        };
        uint32_t number = compare_add(s, &typed, room, &made).number, expected = first_of(order, LENGTH(order));
        tally_check(number == expected, "eas_add of %s, kind %" PRIu32 " gives %" PRIu32 ", not %" PRIu32,
                    names[name].spelled, typed.kind, number, expected);
    }
}

/* The sheet's own number, then nothing in any room, then 14; the lines are known. */
static void compare_steps(const growing_sheet *s, uint32_t own) {
    static const eas_walk walks[] = {{0, 0},
                                     {0, 1},
                                     {0, 2},
                                     {1, 2},
                                     {1, 1},
                                     {1, 0},
                                     {2, 2},
                                     {2, 3},
                                     {3, 2},
                                     {0, UINT32_MAX},
                                     {2, 9},
                                     {65536, 65537},
                                     {UINT32_MAX, UINT32_MAX}};
    static const size_t rooms[] = {0, 6, 7, 8, LINE_MAX_BYTES};
    const size_t records = s->sheet->n < 7 ? 0 : s->sheet->bytes[6];
    for (size_t i = 0; i < LENGTH(walks) * LENGTH(rooms); i++) {
        listing_line line;
        eas_walk walk = walks[i / LENGTH(rooms)];
        size_t room = rooms[i % LENGTH(rooms)];
        bool left = own == 0 && walk.given < walk.count && walk.given < records;
        uint32_t expected = left && room < 7 ? 14 : own;
        eas_step got = compare_step(s, walk, room, &line);
        tally_check(got.number == expected, "eas_next gives %" PRIu32 ", not %" PRIu32, got.number, expected);
        tally_check(got.walk.given == walk.given + (left && room >= 7), "the walk goes on by a line that is given");
        tally_check(!left || strcmp(line.bytes, walk.given == 0 ? "a ! 10\n" : "b ! 10\n") == 0, "the line");
    }
}

static void compare_fixed(random_source *r, tried_sheet *sheet) {
    static parsed_sheet parsed;
    for (size_t i = 0; i < LENGTH(fixed); i++) {
        tally_case("fixed addition", i);
        sheet->n = fixed[i].n;
        memcpy(sheet->bytes, fixed[i].bytes, fixed[i].n);
        sheet_parse(&parsed, sheet->bytes, sheet->n);
        growing_sheet s = growth_lend(r, sheet, &parsed);
        eas_begun begun = compare_begin(&s);
        tally_check(begun.number == fixed[i].walked, "eas_begin gives %" PRIu32, begun.number);
        compare_order(&s, fixed[i].added, false);
        compare_steps(&s, fixed[i].walked);
    }
}

/* Each of the sheet's own numbers, and each of the typed state's, before 19: a sheet to which no record can be added,
 * and the same with one byte changed. Its last records have names of two bytes. */
static void compare_full(random_source *r, tried_sheet *sheet) {
    static parsed_sheet parsed;
    const size_t n = 7 + 256 * 20 + 2876 * 21;
    fullest_sheet(sheet, r, 2, n);
    const struct {
        size_t n, at;
        uint8_t byte;
        uint32_t number;
    } changes[] = {
        {n, 0, 'E', 0},
        {n, 0, 'e', 2},
        {n, 4, 1, 3},
        {n, 4, 3, 3},
        {n, 3, 1, 3},
        {n, n - 21, 0, 5},
        {n, n - 21, 41, 5},
        {n, n - 21, 3, 4},
        {n, n - 18, 9, 6},
        {n, n - 1, 1, 4},
        {n - 1, 0, 'E', 4},
        {n, n - 19, sheet->bytes[n - 40], 16},
        {n, 6, (uint8_t)(sheet->bytes[6] - 1), 4},
        {SHEET_MAX_BYTES + 1, 0, 'E', 1},
        {SHEET_MAX_BYTES + 1, 0, 'e', 1},
    };
    for (size_t i = 0; i < LENGTH(changes); i++) {
        tally_case("full sheet", i);
        uint8_t kept = sheet->bytes[changes[i].at];
        sheet->bytes[changes[i].at] = changes[i].byte;
        sheet->n = changes[i].n;
        sheet_parse(&parsed, sheet->bytes, sheet->n);
        growing_sheet s = growth_lend(r, sheet, &parsed);
        compare_order(&s, changes[i].number, true);
        sheet->bytes[changes[i].at] = kept;
    }
}

/* Makes one record of the first two, whose names have one byte each, so that these are free: the length byte of the
 * first is changed, and its name takes all up to the second one's kind. */
static void free_two_names(tried_sheet *sheet) {
    sheet->bytes[7] = 21;
    sheet->bytes[6]--;
}

/* Every length around that at which a name of 1, of 2 or of 40 bytes is the longest that fits. */
static void compare_lengths(random_source *r, tried_sheet *sheet) {
    static const char *const names[] = {"%00", "zz", FORTY};
    static const size_t lengths[] = {1, 2, 40};
    static parsed_sheet parsed;
    static made_sheet made;
    for (size_t n = 65474; n <= SHEET_MAX_BYTES; n += n == 65480 ? 33 : 1) {
        tally_case("length of an addition", n);
        fullest_sheet(sheet, r, 2, n);
        free_two_names(sheet);
        sheet_parse(&parsed, sheet->bytes, sheet->n);
        growing_sheet s = growth_lend(r, sheet, &parsed);
        for (size_t i = 0; i < 9; i++) {
            size_t length = n + 19 + lengths[i / 3], room = length - 1 + i % 3;
            typed_state typed = typed_as(names[i / 3], 1);
            uint32_t expected = length > SHEET_MAX_BYTES ? 19 : room < length ? 14 : 0;
            uint32_t number = compare_add(&s, &typed, room, &made).number;
            tally_check(number == expected, "eas_add gives %" PRIu32 ", not %" PRIu32, number, expected);
        }
    }
}

/* A spelling longer than any sheet: 8, or 7 where its last byte is wrong. */
static void compare_long_spellings(random_source *r, tried_sheet *sheet) {
    static uint8_t letters[LONG_BYTES];
    static parsed_sheet parsed;
    static made_sheet made;
    fullest_sheet(sheet, r, 2, 200);
    sheet_parse(&parsed, sheet->bytes, sheet->n);
    growing_sheet s = growth_lend(r, sheet, &parsed);
    memset(letters, 'a', LONG_BYTES);
    for (uint32_t expected = 8; expected >= 7; expected--) {
        tally_case("long spelling of an addition", expected);
        typed_state typed = {letters, LONG_BYTES, 1, 0, 0};
        uint32_t number = compare_add(&s, &typed, SHEET_ROOM, &made).number;
        tally_check(number == expected, "eas_add gives %" PRIu32, number);
        letters[LONG_BYTES - 1] = '%';
    }
}

void compare_additions(uint64_t seed) {
    static tried_sheet sheet;
    random_source r = random_case(seed, ADDITIONS_PART, 0);
    compare_fixed(&r, &sheet);
    compare_full(&r, &sheet);
    compare_lengths(&r, &sheet);
    compare_long_spellings(&r, &sheet);
}
