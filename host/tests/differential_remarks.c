/* Remarks: fixed sheets of version 2, and pairs of sheets that differ in remarks only. Every call but eas_remark,
 * eas_back and eas_add gives both sheets of a pair the same, the places of their names aside. */
#include <inttypes.h>
#include <stdio.h>
#include <string.h>

#include "differential.h"
#include "lent.h"
#include "pairs.h"
#include "reach.h"
#include "same.h"
#include "tally.h"

enum { REMARKS_PART = 23, LARGE_EVERY = 500, NUMBERS = 18 };

static lent_buffer sheet_lent, spelling_lent;
static uint64_t pairs_by_number[NUMBERS], longer_pairs, shorter_pairs, changed_pairs, equal_pairs, cut_pairs,
    full_pairs;

/* A sheet of version 2 within 65,536 bytes. Of a large one that is accepted some records are taken away, so that there
 * is room for other remarks. */
static void first_of_pair(tried_sheet *sheet, parsed_sheet *parsed, random_source *r, bool large) {
    random_sheet_of(sheet, r, 2, large);
    if (sheet->n > SHEET_MAX_BYTES)
        sheet->n = SHEET_MAX_BYTES;
    sheet->bytes[3] = 0;
    sheet->bytes[4] = 2;
    sheet_parse(parsed, sheet->bytes, sheet->n);
    if (!large || parsed->number != 0)
        return;
    size_t count = parsed->count / 2 + random_below(r, parsed->count / 2);
    sheet->n = parsed->remarks[count - 1].start + parsed->remarks[count - 1].length;
    sheet->bytes[5] = (uint8_t)(count >> 8);
    sheet->bytes[6] = (uint8_t)count;
    sheet_parse(parsed, sheet->bytes, sheet->n);
}

static void compare_random_pair(random_source *r, bool large) {
    static tried_sheet sheets[2];
    static parsed_sheet parsed[2];
    sheet_pair p = {.sheet = {&sheets[0], &sheets[1]}, .parsed = {&parsed[0], &parsed[1]}};
    first_of_pair(&sheets[0], &parsed[0], r, large);
    cut_pairs += change_remarks(&sheets[1], r, &sheets[0]);
    sheet_parse(&parsed[1], sheets[1].bytes, sheets[1].n);
    pairs_by_number[parsed[0].number]++;
    full_pairs += parsed[1].number == 0 && sheets[1].n == SHEET_MAX_BYTES;
    longer_pairs += sheets[1].n > sheets[0].n;
    shorter_pairs += sheets[1].n < sheets[0].n;
    bool equal = sheets[0].n == sheets[1].n && memcmp(sheets[0].bytes, sheets[1].bytes, sheets[0].n) == 0;
    equal_pairs += equal;
    changed_pairs += sheets[0].n == sheets[1].n && !equal;
    compare_pair(r, &p);
}

/* Sheets with their number, and the remark of the record that is asked for. */
static const struct {
    const uint8_t *bytes;
    size_t n;
    uint32_t number;
    const char *spelled;
    eas_part remark;
} fixed[] = {
    {SHEET(HEAD("\1", "\1") RECORD("a", "\1")), 0, "a", {0, 26, 0}},
    {SHEET(HEAD("\2", "\1") RECORD("a", "\1") "\0"), 0, "a", {0, 27, 0}},
    {SHEET(HEAD("\2", "\1") RECORD("a", "\1") "\1x"), 0, "%61", {0, 27, 1}},
    {SHEET(HEAD("\2", "\1") RECORD("a", "\1") "\1x"), 0, "x", {9, 0, 0}},
    {SHEET(HEAD("\2", "\1") RECORD("a", "\1") "\1x"), 0, "a%", {7, 0, 0}},
    {SHEET(HEAD("\2", "\1") RECORD("a", "\1") "\1x"), 0, "", {8, 0, 0}},
    {SHEET(HEAD("\2", "\2") RECORD("a", "\1") "\3xyz" RECORD("b", "\2") "\2uv"), 0, "b", {0, 50, 2}},
    /* a remark's bytes are missing, also where the kind is unknown or the name was seen */
    {SHEET(HEAD("\2", "\1") RECORD("a", "\1")), 4, "a", {4, 0, 0}},
    {SHEET(HEAD("\2", "\1") RECORD("a", "\1") "\1"), 4, "a", {4, 0, 0}},
    {SHEET(HEAD("\2", "\1") RECORD("a", "\1") "\3xy"), 4, "a", {4, 0, 0}},
    {SHEET(HEAD("\2", "\1") RECORD("a", "\4")), 4, "a", {4, 0, 0}},
    {SHEET(HEAD("\2", "\1") RECORD("a", "\4") "\3xy"), 4, "a", {4, 0, 0}},
    {SHEET(HEAD("\2", "\1") RECORD("a", "\4") "\3xyz"), 6, "a", {6, 0, 0}},
    {SHEET(HEAD("\2", "\2") RECORD("a", "\1") "\0" RECORD("a", "\1")), 4, "a", {4, 0, 0}},
    {SHEET(HEAD("\2", "\2") RECORD("a", "\1") "\0" RECORD("a", "\1") "\2x"), 4, "a", {4, 0, 0}},
    {SHEET(HEAD("\2", "\2") RECORD("a", "\1") "\0" RECORD("a", "\1") "\2xy"), 16, "a", {16, 0, 0}},
    {SHEET(HEAD("\2", "\2") RECORD("a", "\1") "\0" RECORD("a", "\4") "\2xy"), 6, "a", {6, 0, 0}},
    /* bytes are left over */
    {SHEET(HEAD("\2", "\1") RECORD("a", "\1") "\1xy"), 4, "a", {4, 0, 0}},
    {SHEET(HEAD("\2", "\0") "\0"), 4, "a", {4, 0, 0}},
    {SHEET(HEAD("\1", "\1") RECORD("a", "\1") "\0"), 4, "a", {4, 0, 0}},
    {SHEET(HEAD("\1", "\1") RECORD("a", "\1") "\1x"), 4, "a", {4, 0, 0}},
    /* a record in a remark is none, whatever the count; behind an empty remark it is one */
    {SHEET(HEAD("\2", "\1") RECORD("a", "\1") "\24" RECORD("b", "\1") "\0"), 0, "a", {0, 27, 20}},
    {SHEET(HEAD("\2", "\1") RECORD("a", "\1") "\24" RECORD("b", "\1") "\0"), 0, "b", {9, 0, 0}},
    {SHEET(HEAD("\2", "\1") RECORD("a", "\1") "\24" RECORD("a", "\1") "\0"), 0, "a", {0, 27, 20}},
    {SHEET(HEAD("\2", "\2") RECORD("a", "\1") "\24" RECORD("b", "\1") "\0"), 4, "b", {4, 0, 0}},
    {SHEET(HEAD("\2", "\2") RECORD("a", "\1") "\0" RECORD("b", "\1") "\1x"), 0, "b", {0, 47, 1}},
    {SHEET(HEAD("\2", "\1") RECORD("a", "\1") "\0" RECORD("b", "\1") "\1x"), 4, "b", {4, 0, 0}},
    /* a name seen behind a remark, and one that only a remark has */
    {SHEET(HEAD("\2", "\2") RECORD("a", "\1") "\3xyz" RECORD("a", "\2") "\0"), 16, "a", {16, 0, 0}},
    {SHEET(HEAD("\2", "\2") RECORD("a", "\1") "\23" RECORD("b", "\1") RECORD("b", "\2") "\0"), 0, "b", {0, 66, 0}},
    /* other versions */
    {SHEET(HEAD("\0", "\1") RECORD("a", "\1")), 3, "a", {3, 0, 0}},
    {SHEET(HEAD("\3", "\1") RECORD("a", "\1") "\0"), 3, "a", {3, 0, 0}},
    {SHEET("EAS\2\0\0\1" RECORD("a", "\1") "\0"), 3, "a", {3, 0, 0}},
    {SHEET("EAS\2\2\0\1" RECORD("a", "\1") "\0"), 3, "a", {3, 0, 0}},
};

static void compare_fixed(void) {
    for (size_t i = 0; i < sizeof fixed / sizeof *fixed; i++) {
        tally_case("fixed remark", i);
        size_t n = fixed[i].n, m = strlen(fixed[i].spelled);
        const uint8_t *sheet = lent_input(&sheet_lent, fixed[i].bytes, n);
        const uint8_t *spelled = lent_input(&spelling_lent, (const uint8_t *)fixed[i].spelled, m);
        uint32_t number = eas_check(sheet, n);
        eas_part got = eas_remark(sheet, n, spelled, m), expected = fixed[i].remark;
        tally_check(number == fixed[i].number, "eas_check gives %" PRIu32, number);
        tally_check(same_part(got, expected), "eas_remark gives number %" PRIu32 " at %zu length %zu", got.number,
                    got.start, got.length);
    }
}

/* Pairs must have been accepted and refused in every way, and changed in length and in bytes alone; some are cut in a
 * remark, and some are as long as a sheet may be. */
static void check_reach(void) {
    static const uint32_t numbers[] = {0, 2, 4, 5, 6, 16};
    tally_case("reach of pairs", 0);
    reach_numbers("pairs that differ in remarks by number", pairs_by_number, numbers, 6);
    printf("  longer %" PRIu64 ", shorter %" PRIu64 ", of one length %" PRIu64 ", equal %" PRIu64 "\n", longer_pairs,
           shorter_pairs, changed_pairs, equal_pairs);
    printf("  cut in a remark %" PRIu64 ", accepted with 65536 bytes %" PRIu64 "\n", cut_pairs, full_pairs);
    tally_check(longer_pairs > 0 && shorter_pairs > 0 && changed_pairs > 0, "remarks change in length and in bytes");
    tally_check(cut_pairs > 0 && full_pairs > 0, "remarks are cut, and fill a sheet");
}

void compare_remarks(uint64_t seed, uint64_t count) {
    lent_open(&sheet_lent, SHEET_ROOM);
    lent_open(&spelling_lent, SPELLING_ROOM);
    compare_fixed();
    for (uint64_t i = 0; i < count; i++) {
        random_source r = random_case(seed, REMARKS_PART, i);
        tally_case("random pair", i);
        compare_random_pair(&r, i % LARGE_EVERY == 0);
    }
    for (uint64_t i = count; full_pairs == 0; i++) {
        random_source r = random_case(seed, REMARKS_PART, i);
        tally_case("full pair", i);
        compare_random_pair(&r, true);
    }
    check_reach();
}
