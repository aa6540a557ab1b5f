/* Every call that takes a sheet is compared with the reference's own reading of it. */
#include <inttypes.h>
#include <stdio.h>
#include <string.h>

#include "differential.h"
#include "growth.h"
#include "length.h"
#include "lent.h"
#include "lists.h"
#include "reach.h"
#include "reference/answer.h"
#include "reference/line.h"
#include "reference/sheet.h"
#include "same.h"
#include "sheets.h"
#include "tally.h"

enum { SHEETS_PART = 22, LARGE_EVERY = 1000, EVERY_RECORD_EVERY = 16, NUMBERS = 18, ROOM_MAX = 512, NO_REMARK = 256 };

static lent_buffer sheet_lent, spelling_lent, line_lent, list_lent, listing_lent;
static uint64_t sheets_by_number[3][NUMBERS], searches_by_number[NUMBERS], remarks_by_length[NO_REMARK + 1];

/* One case: what was lent, and where it stands. */
typedef struct {
    const tried_sheet *sheet;
    const tried_bytes *spelling;
    const uint8_t *at, *spelled; /* null in some cases of length 0 */
} search_case;

static void show(const search_case *c) {
    tally_hex("sheet", c->sheet->bytes, c->sheet->n);
    tally_hex("spelling", c->spelling->bytes, c->spelling->n);
}

static void expect(const search_case *c, bool held, const char *what) {
    if (!tally_check(held, "%s", what))
        show(c);
}

static void compare_record(const search_case *c, const char *call, const eas_record *expected, eas_record got) {
    if (tally_check(same_record(got, *expected),
                    "%s: expected number %" PRIu32 " kind %" PRIu32 " %" PRIu64 " %" PRIu64 " at %zu length %zu", call,
                    expected->number, expected->kind, expected->first, expected->second, expected->start,
                    expected->length))
        return;
    tally_note("got number %" PRIu32 " kind %" PRIu32 " %" PRIu64 " %" PRIu64 " at %zu length %zu", got.number,
               got.kind, got.first, got.second, got.start, got.length);
    show(c);
}

static void compare_find(const search_case *c, const eas_record *expected) {
    compare_record(c, "eas_find", expected, eas_find(c->at, c->sheet->n, c->spelled, c->spelling->n));
}

/* 1 or 2, or 0 for neither. */
static int version_of(const tried_sheet *sheet) {
    bool known = sheet->n >= 5 && sheet->bytes[3] == 0 && (sheet->bytes[4] == 1 || sheet->bytes[4] == 2);
    return known ? sheet->bytes[4] : 0;
}

static void compare_remark(const search_case *c, const parsed_sheet *parsed) {
    eas_part expected = sheet_remark(parsed, c->sheet->bytes, c->spelling->bytes, c->spelling->n);
    eas_part got = eas_remark(c->at, c->sheet->n, c->spelled, c->spelling->n);
    remarks_by_length[expected.number != 0 || version_of(c->sheet) == 1 ? NO_REMARK : expected.length]++;
    if (tally_check(same_part(got, expected), "eas_remark: expected number %" PRIu32 " at %zu length %zu",
                    expected.number, expected.start, expected.length))
        return;
    tally_note("got number %" PRIu32 " at %zu length %zu", got.number, got.start, got.length);
    show(c);
}

/* The record at a place, or a refusal: the sheet's, then 9. */
static void compare_place(const search_case *c, const parsed_sheet *parsed, size_t place) {
    eas_record refused = {.number = parsed->number != 0 ? parsed->number : 9};
    const eas_record *expected = place < parsed->count ? &parsed->records[place] : &refused;
    compare_record(c, "eas_record_at", expected, eas_record_at(c->at, c->sheet->n, place));
}

/* Every record where all are wanted, else one; and places past the last. */
static void compare_places(const search_case *c, random_source *r, const parsed_sheet *parsed, bool every_record) {
    for (size_t i = 0; every_record && i < parsed->count; i++)
        compare_place(c, parsed, i);
    compare_place(c, parsed, random_below(r, parsed->count + 1));
    compare_place(c, parsed, parsed->count);
    compare_place(c, parsed, SIZE_MAX - random_below(r, 3));
    compare_place(c, parsed, random_bits(r) >> random_below(r, 64));
}

static eas_answer compare_search(const search_case *c, const eas_record *found) {
    eas_answer got = eas_search(c->at, c->sheet->n, c->spelled, c->spelling->n);
    eas_answer refused = {.number = found->number};
    const char *wrong = found->number != 0 ? answers_differ(&refused, &got)
                                           : judge_answer((uint8_t)found->kind, found->first, found->second, &got);
    if (!tally_check(wrong == NULL, "eas_search: %s", wrong)) {
        tally_answer("got", &got);
        show(c);
    }
    if (found->number == 0) {
        eas_answer direct = eas_evaluate((uint8_t)found->kind, found->first, found->second);
        expect(c, answers_differ(&direct, &got) == NULL, "eas_search differs from eas_evaluate");
    }
    searches_by_number[got.number < NUMBERS ? got.number : 0]++;
    return got;
}

static void compare_plot(const search_case *c, const eas_answer *answer) {
    eas_mark got = eas_plot(c->at, c->sheet->n, c->spelled, c->spelling->n), expected = mark_of(answer);
    if (tally_check(same_mark(got, expected), "eas_plot: expected blank %" PRIu32 " %.17g %.17g", expected.blank,
                    expected.point.across, expected.point.up))
        return;
    tally_note("got blank %" PRIu32 " %.17g %.17g", got.blank, got.point.across, got.point.up);
    show(c);
}

static void compare_line(const search_case *c, random_source *r, const eas_answer *answer) {
    listing_line line = line_of(c->spelling->bytes, c->spelling->n, answer);
    size_t rooms[] = {line.length, line.length - 1, line.length + 1, 0, LINE_MAX_BYTES, random_below(r, ROOM_MAX)};
    for (int i = 0; i < 2; i++) {
        size_t room = i == 0 ? rooms[0] : rooms[1 + random_below(r, 5)];
        bool fits = room >= line.length;
        uint8_t *out = lent_output(&line_lent, room);
        if (room == 0 && random_below(r, 2))
            out = NULL;
        eas_text got = eas_line(c->at, c->sheet->n, c->spelled, c->spelling->n, out, room);
        bool same = got.number == (fits ? 0 : 14) && got.length == (fits ? line.length : 0) &&
                    lent_output_is(&line_lent, line.bytes, fits ? line.length : 0);
        if (tally_check(same, "eas_line in %zu bytes: expected number %d: %.*s", room, fits ? 0 : 14,
                        (int)line.length - 1, line.bytes))
            continue;
        tally_note("got number %" PRIu32 " length %zu", got.number, got.length);
        tally_hex("room afterwards", line_lent.bytes, room);
        show(c);
    }
}

static void compare_listing_in(const search_case *c, const name_list *list, const listing_text *expected, size_t room) {
    bool fits = room >= expected->n;
    const uint8_t *names = lent_input(&list_lent, list->bytes, list->n);
    uint8_t *out = lent_output(&listing_lent, room);
    eas_text got = eas_list(c->at, c->sheet->n, list->n == 0 ? NULL : names, list->n, room == 0 ? NULL : out, room);
    bool same = got.number == (fits ? 0 : 14) && got.length == (fits ? expected->n : 0) &&
                lent_output_is(&listing_lent, expected->bytes, fits ? expected->n : 0) &&
                lent_input_kept(&list_lent, list->bytes);
    if (tally_check(same, "eas_list in %zu bytes: expected number %d, %zu bytes", room, fits ? 0 : 14, expected->n))
        return;
    tally_note("got number %" PRIu32 " length %zu", got.number, got.length);
    tally_hex("list", list->bytes, list->n);
    show(c);
}

/* A run list in exactly its room, in one byte less, and in some other room. */
static void compare_listing(const search_case *c, random_source *r, const parsed_sheet *parsed, const name_list *list) {
    static listing_text expected;
    work_out_listing(&expected, parsed, c->sheet, list);
    compare_listing_in(c, list, &expected, expected.n);
    if (expected.n > 0)
        compare_listing_in(c, list, &expected, expected.n - 1);
    compare_listing_in(c, list, &expected, random_below(r, expected.n + 100));
}

/* A spelling for this sheet: of one of its names, or any. */
static void choose_spelling(tried_bytes *out, random_source *r, const parsed_sheet *parsed, const tried_sheet *sheet) {
    if (parsed->count == 0 || random_below(r, 4) == 0) {
        random_spelling(out, r);
        return;
    }
    const eas_record *record = &parsed->records[random_below(r, parsed->count)];
    random_spelling_of(out, r, sheet->bytes + record->start, record->length);
}

static void compare_case(search_case *c, random_source *r, const parsed_sheet *parsed) {
    eas_record found = sheet_find(parsed, c->sheet->bytes, c->spelling->bytes, c->spelling->n);
    c->spelled = lent_input(&spelling_lent, c->spelling->bytes, c->spelling->n);
    if (c->spelling->n == 0 && random_below(r, 2))
        c->spelled = NULL;
    compare_find(c, &found);
    compare_remark(c, parsed);
    eas_answer answer = compare_search(c, &found);
    compare_plot(c, &answer);
    compare_line(c, r, &answer);
    expect(c, lent_input_kept(&sheet_lent, c->sheet->bytes), "the sheet's bytes changed");
    expect(c, lent_input_kept(&spelling_lent, c->spelling->bytes), "the spelling's bytes changed");
}

/* One search in the sheet, or one for every record of it. */
static void compare_sheet(random_source *r, const tried_sheet *sheet, bool every_record) {
    static parsed_sheet parsed;
    static name_list list;
    tried_bytes spelling = {0};
    sheet_parse(&parsed, sheet->bytes, sheet->n);
    search_case c = {.sheet = sheet, .spelling = &spelling, .at = lent_input(&sheet_lent, sheet->bytes, sheet->n)};
    if (sheet->n == 0 && random_below(r, 2))
        c.at = NULL;
    uint32_t number = eas_check(c.at, sheet->n);
    if (!tally_check(number == parsed.number, "eas_check: expected %" PRIu32 ", got %" PRIu32, parsed.number, number))
        show(&c);
    sheets_by_number[version_of(sheet)][parsed.number]++;
    compare_growth(r, sheet, &parsed, 1);
    compare_places(&c, r, &parsed, every_record);
    random_list(&list, r, &parsed, sheet);
    compare_listing(&c, r, &parsed, &list);
    choose_spelling(&spelling, r, &parsed, sheet);
    compare_case(&c, r, &parsed);
    for (size_t i = 0; every_record && i < parsed.count; i++) {
        random_spelling_of(&spelling, r, sheet->bytes + parsed.records[i].start, parsed.records[i].length);
        compare_case(&c, r, &parsed);
    }
}

/* Zeros behind several starts, in lengths at and beyond every limit. */
static void compare_edge_lengths(random_source *r, tried_sheet *sheet) {
    static const size_t lengths[] = {0,  1,  2,     3,     4,     5,     6,     7,      8,
                                     26, 65, 65534, 65535, 65536, 65537, 65538, 100000, SHEET_ROOM};
    static const char starts[][9] = {"EAS\0\1\0\0", "EAS\0\1\0\1\1",   "EAS\0\1\0\1\x28", "EAS\0\3\0\0",
                                     "EAT\0\1\0\0", "EAS\1\1\0\0",     "EAS\0\1\xff\xff", "EAS\0\1\0\2\1",
                                     "EAS\0\2\0\0", "EAS\0\2\0\1\1",   "EAS\0\2\0\1\x28", "EAS\1\2\0\0",
                                     "EAT\0\2\0\0", "EAS\0\2\xff\xff", "EAS\0\2\0\2\1",   "EAS\0\0\0\0"};
    for (size_t i = 0; i < sizeof lengths / sizeof lengths[0]; i++) {
        for (size_t j = 0; j < sizeof starts / sizeof starts[0]; j++) {
            tally_case("edge length", 100 * i + j);
            memset(sheet->bytes, 0, sizeof sheet->bytes);
            memcpy(sheet->bytes, starts[j], 8);
            sheet->n = lengths[i];
            compare_sheet(r, sheet, false);
        }
    }
}

/* Lists at and beyond 65,536 bytes, with a sheet that is accepted and one that is not. */
static void compare_edge_lists(random_source *r, tried_sheet *sheet) {
    static name_list list;
    static parsed_sheet parsed;
    tried_bytes spelling = {0};
    for (int i = 0; i < 2 * LIST_EDGES; i++) {
        tally_case("edge list", (uint64_t)i);
        sheet->n = 7;
        memcpy(sheet->bytes, i % 2 == 0 ? "EAS\0\1\0\0" : "EAS\0\3\0\0", 7);
        sheet_parse(&parsed, sheet->bytes, sheet->n);
        edge_list(&list, i / 2);
        search_case c = {.sheet = sheet, .spelling = &spelling, .at = lent_input(&sheet_lent, sheet->bytes, sheet->n)};
        compare_listing(&c, r, &parsed, &list);
    }
}

/* A sheet of version 2 with remarks of 0, 1, 255 and 19 bytes, the last one a record, cut at every byte, with every
 * count up to one too many. */
static void compare_cuts(random_source *r, tried_sheet *sheet) {
    static const uint8_t record[] = "\1a\1\0\0\0\x17\x97\xbd\x18\x80\0\0\0\x1e\x14\xeb\x8c\0";
    static const uint8_t lengths[] = {0, 1, 255, 19};
    memcpy(sheet->bytes, "EAS\0\2\0\0", 7);
    sheet->n = 7;
    for (size_t i = 0; i < sizeof lengths; i++) {
        uint8_t *to = sheet->bytes + sheet->n;
        memcpy(to, record, 19);
        to[1] = (uint8_t)("ab\0c"[i]);
        to[19] = lengths[i];
        for (size_t j = 0; j < lengths[i]; j++)
            to[20 + j] = i < 3 ? (uint8_t)random_bits(r) : record[j];
        sheet->n += 20u + lengths[i];
    }
    size_t whole = sheet->n;
    for (size_t i = 0; i < (whole + 1) * 6; i++) {
        tally_case("cut", i);
        sheet->n = i / 6;
        sheet->bytes[6] = (uint8_t)(i % 6);
        compare_sheet(r, sheet, true);
    }
}

/* Sheets whose names all fall into one chain of the library's index: up to CHAIN_EVERY records each is searched for,
 * and in every sheet a name of that chain which is not there. */
static void compare_one_chain(random_source *r, tried_sheet *sheet) {
    enum { CHAIN_EVERY = 100 };
    static const size_t counts[] = {1, 2, 3, 4, CHAIN_EVERY, SHEET_ROOM};
    static parsed_sheet parsed;
    tried_bytes name, spelling;
    for (size_t i = 0; i < 2 * LENGTH(counts); i++) {
        tally_case("one chain", i);
        one_chain_sheet(sheet, r, counts[i / 2], i % 2 == 1, &name);
        compare_sheet(r, sheet, counts[i / 2] <= CHAIN_EVERY);
        sheet_parse(&parsed, sheet->bytes, sheet->n);
        uint32_t due = i > 2 && i % 2 == 1 ? 16 : 0;
        tally_check(parsed.number == due, "a sheet of one chain is made for %" PRIu32, due);
        random_spelling_of(&spelling, r, name.bytes, name.n);
        compare_case(&(search_case){sheet, &spelling, lent_input(&sheet_lent, sheet->bytes, sheet->n), NULL}, r,
                     &parsed);
    }
}

/* Document 01's printed listing: every line of it has one right form. */
static void compare_printed_listing(void) {
    static const uint8_t sheet[] = "EAS\0\1\0\3"
                                   "\12nose/cap 1\1\0\0\0\x17\x97\xbd\x18\x80\0\0\0\x1e\x14\xeb\x8c\0"
                                   "\2\064\062\2\0\0\0\0\x04\xac\x6a\xd0\0\0\0\x1e\x14\xeb\x8c\0"
                                   "\3hot\1\0\0\x09\x37\x45\xdd\x92\0\0\0\0\x03\x02\x17\x8e\0";
    static const char *const lines[][2] = {
        {"nose%2fcap%201", "nose%2Fcap%201 T 0 0 273213936\n"},
        {"42", "42 S 0 0 61182203\n"},
        {"hot", "hot ! 13\n"},
        {"43", "43 ! 9\n"},
        {"a%2", "? ! 7\n"},
    };
    const uint8_t *at = lent_input(&sheet_lent, sheet, sizeof sheet - 1);
    for (size_t i = 0; i < 5; i++) {
        size_t m = strlen(lines[i][0]), length = strlen(lines[i][1]);
        const uint8_t *spelled = lent_input(&spelling_lent, (const uint8_t *)lines[i][0], m);
        uint8_t *out = lent_output(&line_lent, LINE_MAX_BYTES);
        tally_case("printed listing", i);
        eas_text got = eas_line(at, sizeof sheet - 1, spelled, m, out, LINE_MAX_BYTES);
        bool same = got.number == 0 && got.length == length && lent_output_is(&line_lent, lines[i][1], length);
        tally_check(same, "expected %s", lines[i][1]);
    }
}

void compare_sheets(uint64_t seed, uint64_t count) {
    static const uint32_t of_sheets[] = {0, 1, 2, 4, 5, 6, 16}, of_others[] = {1, 2, 3};
    static const uint32_t of_searches[] = {0, 7, 8, 9, 10, 11, 12, 13, 17};
    static const uint32_t of_remarks[] = {0, 1, 2, 19, 254, 255};
    static tried_sheet sheet;
    random_source edges = random_case(seed, SHEETS_PART, count);
    lent_open(&sheet_lent, SHEET_ROOM);
    lent_open(&spelling_lent, SPELLING_ROOM);
    lent_open(&line_lent, ROOM_MAX);
    lent_open(&list_lent, LIST_ROOM);
    lent_open(&listing_lent, LISTING_ROOM);
    compare_printed_listing();
    compare_edge_lengths(&edges, &sheet);
    compare_edge_lists(&edges, &sheet);
    compare_cuts(&edges, &sheet);
    compare_one_chain(&edges, &sheet);
    for (uint64_t i = 0; i < count; i++) {
        random_source r = random_case(seed, SHEETS_PART, i);
        tally_case("random sheet", i);
        random_sheet(&sheet, &r, i % LARGE_EVERY == 0);
        compare_sheet(&r, &sheet, i % EVERY_RECORD_EVERY == 1);
    }
    tally_case("reach of sheets", 0);
    reach_numbers("sheets of version 1 by number", sheets_by_number[1], of_sheets, 7);
    reach_numbers("sheets of version 2 by number", sheets_by_number[2], of_sheets, 7);
    reach_numbers("sheets of another version by number", sheets_by_number[0], of_others, 3);
    reach_numbers("searches of accepted sheets by number", searches_by_number, of_searches, 9);
    reach_numbers("remarks of version 2 by length", remarks_by_length, of_remarks, 6);
}
