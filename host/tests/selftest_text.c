/* Sheets and their conversion, names, lines and marks, against cases worked out by hand. */
#include <inttypes.h>
#include <stddef.h>
#include <string.h>

#include "reference/convert.h"
#include "reference/line.h"
#include "reference/name.h"
#include "reference/sheet.h"
#include "selftest.h"
#include "tally.h"

/* Sheets with the number that document 01's table gives, also where two conditions meet. */
static const struct {
    const uint8_t *bytes;
    size_t n;
    uint32_t number;
    size_t count;
} sheets[] = {
    {BYTES("EAS\0\1\0\0"), 0, 0},
    {BYTES("EAS\0\1\0\1\1A\1" VALUES), 0, 1},
    {BYTES("EAS\0\1\0\2\1A\1" VALUES "\2A\0\2" VALUES), 0, 2},
    {BYTES("EAS\0\1\0\1\1A\3" VALUES), 0, 1},
    {BYTES(""), 2, 0},
    {BYTES("EAS\0\1\0"), 2, 0},
    {BYTES("EAT\0\1\0\0"), 2, 0},
    {BYTES("eas\0\3\0\0"), 2, 0},
    {BYTES("EAS\0\3\0\0"), 3, 0},
    {BYTES("EAS\1\1\0\0"), 3, 0},
    {BYTES("EAS\1\0\0\1\0"), 3, 0},
    {BYTES("EAS\0\1\0\1"), 4, 0},
    {BYTES("EAS\0\1\0\1\0"), 5, 0},
    {BYTES("EAS\0\1\0\1\x29"), 5, 0},
    {BYTES("EAS\0\1\0\1\x28"), 4, 0},
    {BYTES("EAS\0\1\0\1\1A\4\0\0\0\0\0\0\0\0\0\0\0\0\0\0\0"), 4, 0},
    {BYTES("EAS\0\1\0\1\1A\0" VALUES), 6, 0},
    {BYTES("EAS\0\1\0\1\1A\4" VALUES "x"), 6, 0},
    {BYTES("EAS\0\1\0\2\1A\1" VALUES "\1A\1" VALUES), 16, 0},
    {BYTES("EAS\0\1\0\2\1A\1" VALUES "\1A\4" VALUES), 6, 0},
    {BYTES("EAS\0\1\0\3\1A\1" VALUES "\1A\1" VALUES "\0"), 16, 0},
    {BYTES("EAS\0\1\0\1\1A\1" VALUES "\0"), 4, 0},
    {BYTES("EAS\0\1\1\0\1A\1" VALUES), 4, 0},
    {BYTES("EAS\0\0\0\0"), 3, 0},
    {BYTES("EAS\2\0\0\0"), 3, 0},
    {BYTES("EAS\2\2\0\0"), 3, 0},
    {BYTES("EAS\0\2\0"), 2, 0},
    {BYTES("EAT\0\2\0\0"), 2, 0},
    {BYTES("EAS\0\2\0\0"), 0, 0},
    {BYTES("EAS\0\2\0\0\0"), 4, 0},
    {BYTES("EAS\0\2\0\1"), 4, 0},
    {BYTES("EAS\0\2\0\1\0"), 5, 0},
    {BYTES("EAS\0\2\0\1\x29"), 5, 0},
    {BYTES("EAS\0\2\0\1\x28"), 4, 0},
    {BYTES("EAS\0\2\0\1\1A\1" VALUES), 4, 0},
    {BYTES("EAS\0\2\0\1\1A\1" VALUES "\0"), 0, 1},
    {BYTES("EAS\0\2\0\1\1A\1" VALUES "\1x"), 0, 1},
    {BYTES("EAS\0\2\0\1\1A\1" VALUES "\1"), 4, 0},
    {BYTES("EAS\0\2\0\1\1A\1" VALUES "\2x"), 4, 0},
    {BYTES("EAS\0\2\0\1\1A\1" VALUES "\xffx"), 4, 0},
    {BYTES("EAS\0\2\0\1\1A\1" VALUES "\1xy"), 4, 0},
    {BYTES("EAS\0\2\0\1\1A\4" VALUES), 4, 0},
    {BYTES("EAS\0\2\0\1\1A\4" VALUES "\1"), 4, 0},
    {BYTES("EAS\0\2\0\1\1A\4" VALUES "\1x"), 6, 0},
    {BYTES("EAS\0\2\0\2\1A\1" VALUES "\0\1A\1" VALUES), 4, 0},
    {BYTES("EAS\0\2\0\2\1A\1" VALUES "\0\1A\1" VALUES "\1"), 4, 0},
    {BYTES("EAS\0\2\0\2\1A\1" VALUES "\0\1A\1" VALUES "\1x"), 16, 0},
    {BYTES("EAS\0\2\0\2\1A\1" VALUES "\0\1A\4" VALUES "\1x"), 6, 0},
    {BYTES("EAS\0\2\0\2\1A\1" VALUES "\0\1B\1" VALUES "\0"), 0, 2},
    {BYTES("EAS\0\2\0\1\1A\1" VALUES "\23\1B\1" VALUES), 0, 1},
    {BYTES("EAS\0\2\0\2\1A\1" VALUES "\23\1B\1" VALUES), 4, 0},
    {BYTES("EAS\0\2\0\2\1A\1" VALUES "\23\1B\1" VALUES "\1B\2" VALUES "\0"), 0, 2},
    {BYTES("EAS\0\2\0\2\1A\1" VALUES "\23\1B\1" VALUES "\1A\2" VALUES "\0"), 16, 0},
    {BYTES("EAS\0\1\0\1\1A\1" VALUES "\1x"), 4, 0},
};

static parsed_sheet parsed;

static void test_sheets(void) {
    for (size_t i = 0; i < LENGTH(sheets); i++) {
        tally_case("sheet", i);
        sheet_parse(&parsed, sheets[i].bytes, sheets[i].n);
        tally_check(parsed.number == sheets[i].number && parsed.count == sheets[i].count,
                    "number %" PRIu32 ", %zu records", parsed.number, parsed.count);
    }
}

static void test_sheet_lengths(void) {
    static uint8_t large[65537] = "EAT";
    sheet_parse(&parsed, large, sizeof large);
    tally_check(parsed.number == 1, "too long comes before a wrong mark");
    sheet_parse(&parsed, large, sizeof large - 1);
    tally_check(parsed.number == 2, "65,536 bytes are not too long");
}

static void test_finding(void) {
    tally_case("finding", 0);
    sheet_parse(&parsed, sheets[2].bytes, sheets[2].n);
    eas_record found = sheet_find(&parsed, sheets[2].bytes, BYTES("%41%00"));
    tally_check(found.number == 0 && found.kind == 2 && found.first == 7 && found.second == 258 && found.start == 27 &&
                    found.length == 2,
                "second record found");
    tally_check(sheet_find(&parsed, sheets[2].bytes, BYTES("B")).number == 9, "no such name");
    tally_check(sheet_find(&parsed, sheets[2].bytes, BYTES("A%")).number == 7, "wrong spelling");
    tally_check(sheet_find(&parsed, sheets[2].bytes, BYTES("")).number == 8, "empty spelling");
    sheet_parse(&parsed, sheets[8].bytes, sheets[8].n);
    tally_check(sheet_find(&parsed, sheets[8].bytes, BYTES("A%")).number == 3, "the sheet comes before the name");
}

/* Both versions, with a second record behind a remark of 0, 3 and 255 bytes. */
static void test_remarks(void) {
    static const size_t lengths[] = {0, 3, 255};
    static uint8_t sheet[400] = "EAS\0\2\0\2\1A\1" VALUES;
    for (size_t i = 0; i < LENGTH(lengths); i++) {
        size_t length = lengths[i], n = 27 + length;
        tally_case("remark", i);
        sheet[26] = (uint8_t)length;
        memset(sheet + 27, 1, length);
        memcpy(sheet + n, "\1B\2" VALUES "\2uv", 22);
        sheet_parse(&parsed, sheet, n + 22);
        eas_part first = sheet_remark(&parsed, sheet, BYTES("A")), second = sheet_remark(&parsed, sheet, BYTES("%42"));
        tally_check(first.number == 0 && first.start == 27 && first.length == length, "first remark");
        tally_check(second.number == 0 && second.start == n + 20 && second.length == 2, "second remark");
        tally_check(sheet_find(&parsed, sheet, BYTES("B")).start == n + 1, "a name behind a remark");
        eas_part absent = sheet_remark(&parsed, sheet, BYTES("C"));
        tally_check(absent.number == 9 && absent.start == 0 && absent.length == 0, "no such name");
    }
    tally_check(sheet_remark(&parsed, sheet, BYTES("A%")).number == 7, "wrong spelling");
    tally_check(sheet_remark(&parsed, sheet, BYTES("")).number == 8, "empty spelling");
    sheet_parse(&parsed, sheets[2].bytes, sheets[2].n);
    eas_part none = sheet_remark(&parsed, sheets[2].bytes, BYTES("A"));
    tally_check(none.number == 0 && none.start == 26 && none.length == 0, "behind the record in version 1");
    sheet_parse(&parsed, sheets[8].bytes, sheets[8].n);
    none = sheet_remark(&parsed, sheets[8].bytes, BYTES("A%"));
    tally_check(none.number == 3 && none.start == 0 && none.length == 0, "the sheet comes before the name");
}

/* Sheets with the version to convert from, and their number or their result. */
static const struct {
    uint64_t from;
    const uint8_t *sheet;
    size_t n;
    uint32_t number;
    const uint8_t *result;
    size_t length;
} conversions[] = {
    {1, BYTES("EAS\0\1\0\0"), 0, BYTES("EAS\0\2\0\0")},
    {2, BYTES("EAS\0\2\0\0"), 0, BYTES("EAS\0\1\0\0")},
    {1, BYTES("EAS\0\1\0\1\1A\3" VALUES), 0, BYTES("EAS\0\2\0\1\1A\3" VALUES "\0")},
    {1, BYTES("EAS\0\1\0\2\1A\1" VALUES "\2A\0\2" VALUES), 0, BYTES("EAS\0\2\0\2\1A\1" VALUES "\0\2A\0\2" VALUES "\0")},
    {2, BYTES("EAS\0\2\0\2\1A\1" VALUES "\0\2A\0\2" VALUES "\0"), 0, BYTES("EAS\0\1\0\2\1A\1" VALUES "\2A\0\2" VALUES)},
    {2, BYTES("EAS\0\2\0\1\1A\1" VALUES "\1x"), 18, BYTES("")},
    {2, BYTES("EAS\0\2\0\2\1A\1" VALUES "\0\1B\1" VALUES "\1\0"), 18, BYTES("")},
    {2, BYTES("EAS\0\2\0\2\1A\1" VALUES "\1x\1A\1" VALUES "\0"), 16, BYTES("")},
    {2, BYTES("EAS\0\2\0\1\1A\1" VALUES "\1xy"), 4, BYTES("")},
    {1, BYTES("EAS\0\2\0\0"), 3, BYTES("")},
    {2, BYTES("EAS\0\1\0\0"), 3, BYTES("")},
    {1, BYTES("EAS\0\2\0\1"), 3, BYTES("")},
    {2, BYTES("EAS\0\1\0\1\0"), 3, BYTES("")},
    {1, BYTES("EAS\0\3\0\0"), 3, BYTES("")},
    {2, BYTES("EAS\2\0\0\0"), 3, BYTES("")},
    {1, BYTES("EAS\0\1\0\1\0"), 5, BYTES("")},
    {1, BYTES("EAT\0\2\0\0"), 2, BYTES("")},
    {2, BYTES("EAS\0\1\0"), 2, BYTES("")},
};

void test_wrong_results(const made_sheet *right) {
    static uint8_t written[SHEET_MAX_BYTES];
    const size_t length = right->length;
    const uint32_t number = right->number;
    const eas_text made = {number, length};
    const eas_text others[] = {{number + 1, 0}, {number + 1, length}, {number, length + 1}, {14, 0}, {0, number != 0}};
    memcpy(written, right->bytes, length);
    tally_check(judge_made(right, length, made, written) == NULL, "the right result");
    for (size_t i = 0; i < LENGTH(others); i++)
        tally_check(judge_made(right, length, others[i], written) != NULL, "another number or length");
    for (size_t i = 0; i < length; i++) {
        written[i] ^= 1;
        tally_check(judge_made(right, length, made, written) != NULL, "another byte %zu", i);
        written[i] ^= 1;
    }
    if (number != 0)
        return;
    tally_check(judge_made(right, length - 1, made, written) != NULL, "a result without room");
    tally_check(judge_made(right, length - 1, (eas_text){14, 0}, written) == NULL, "14 without room");
}

static made_sheet right;

static void test_conversions(void) {
    for (size_t i = 0; i < LENGTH(conversions); i++) {
        tally_case("conversion", i);
        sheet_parse(&parsed, conversions[i].sheet, conversions[i].n);
        sheet_convert(&right, &parsed, conversions[i].sheet, conversions[i].from);
        tally_check(right.number == conversions[i].number && right.length == conversions[i].length &&
                        memcmp(right.bytes, conversions[i].result, right.length) == 0,
                    "number %" PRIu32 ", %zu bytes", right.number, right.length);
        test_wrong_results(&right);
    }
}

/* 3,120 records of 20 bytes, of which the last is longer: 62,407 bytes and 65,527 in version 2, and as many more. */
static void test_long_conversions(void) {
    static uint8_t sheet[62500] = "EAS\0\1\x0c\x30";
    for (size_t i = 0; i < 3120; i++)
        memcpy(sheet + 7 + 20 * i, (uint8_t[]){2, (uint8_t)(i >> 8), (uint8_t)i, 1}, 4);
    for (size_t more = 8; more <= 10; more++) {
        size_t n = 62407 + more;
        tally_case("long conversion", more);
        sheet[62387] = (uint8_t)(2 + more);
        memset(sheet + 62390, 1, more + 1);
        sheet_parse(&parsed, sheet, n);
        sheet_convert(&right, &parsed, sheet, 1);
        tally_check(parsed.number == 0 && right.number == (more <= 9 ? 0 : 1) &&
                        right.length == (more <= 9 ? n + 3120 : 0),
                    "number %" PRIu32 ", %zu bytes", right.number, right.length);
    }
}

#define TEN "ABCDEFGHIJ"

static const struct {
    const uint8_t *spelled;
    size_t n;
    uint32_t number;
    const char *name;
    size_t length;
} readings[] = {
    {BYTES("nose%2fcap%201"), 0, "nose/cap 1", 10},
    {BYTES("nose%2Fcap%201"), 0, "nose/cap 1", 10},
    {BYTES("%41%2541"), 0, "A%41", 4},
    {BYTES("-._~"), 0, "-._~", 4},
    {BYTES("%00"), 0, "\0", 1},
    {BYTES("%fF"), 0, "\xff", 1},
    {BYTES(TEN TEN TEN TEN), 0, TEN TEN TEN TEN, 40},
    {BYTES(TEN TEN TEN TEN "K"), 8, "", 0},
    {BYTES(TEN TEN TEN TEN "K/"), 7, "", 0},
    {BYTES(""), 8, "", 0},
    {BYTES("a%2"), 7, "", 0},
    {BYTES("a%"), 7, "", 0},
    {BYTES("%g0"), 7, "", 0},
    {BYTES("%0G"), 7, "", 0},
    {BYTES("a b"), 7, "", 0},
    {BYTES("a+b"), 7, "", 0},
    {BYTES("\x80"), 7, "", 0},
};

static void test_names(void) {
    for (size_t i = 0; i < LENGTH(readings); i++) {
        tally_case("reading", i);
        read_name name = name_read(readings[i].spelled, readings[i].n);
        tally_check(name.number == readings[i].number && name.length == readings[i].length &&
                        memcmp(name.bytes, readings[i].name, name.length) == 0,
                    "number %" PRIu32 ", %zu bytes", name.number, name.length);
    }
    written_name written = name_write(BYTES("a/Z 9~\xff%"));
    tally_check(written.number == 0 && written.length == 16 && memcmp(written.bytes, "a%2FZ%209~%FF%25", 16) == 0,
                "writing");
    tally_check(name_write(BYTES("")).number == 8 && name_write(BYTES(TEN TEN TEN TEN "K")).number == 8, "lengths");
}

static void test_lines_and_marks(void) {
    static const struct {
        const char *spelled, *line;
        eas_answer answer;
    } lines[] = {
        {"nose%2fcap%201", "nose%2Fcap%201 T 0 0 273213936\n", {.letter = 'T', .value = 273213936}},
        {"42", "42 S 0 0 61182203\n", {.letter = 'S', .value = 61182203}},
        {"hot", "hot ! 13\n", {.number = 13, .letter = 'T', .y = -1000000, .z = 3000000}},
        {"a%2", "? ! 7\n", {.number = 7}},
        {"n", "n S -7000000 -1 5\n", {.letter = 'S', .y = -7000000, .z = -1, .value = 5}},
        {"p", "p P 0 0 40399896736\n", {.letter = 'P', .value = 40399896736}},
        {"p", "p ! 17\n", {.number = 17, .letter = 'P', .z = 3000000}},
    };
    for (size_t i = 0; i < LENGTH(lines); i++) {
        tally_case("line", i);
        listing_line line = line_of((const uint8_t *)lines[i].spelled, strlen(lines[i].spelled), &lines[i].answer);
        tally_check(line.length == strlen(lines[i].line) && memcmp(line.bytes, lines[i].line, line.length) == 0,
                    "text");
    }
    eas_mark blank = mark_of(&lines[2].answer), point = mark_of(&lines[4].answer);
    tally_check(blank.blank == 13 && blank.point.across == 0 && blank.point.up == 0, "blank mark");
    tally_check(point.blank == 0 && point.point.across == 0 && point.point.up == 5, "point mark");
    static const int64_t pressures[][2] = {
        {40399896736, 40399}, {999999, 0}, {1000000, 1}, {401, 0}, {1290000000000000000, 1290000000000}};
    for (size_t i = 0; i < LENGTH(pressures); i++) {
        eas_answer a = {.letter = 'P', .value = pressures[i][0]};
        tally_check(mark_of(&a).point.up == (double)pressures[i][1], "whole pascals of %" PRId64, pressures[i][0]);
    }
}

void test_texts(void) {
    test_sheets();
    test_sheet_lengths();
    test_finding();
    test_remarks();
    test_conversions();
    test_long_conversions();
    test_names();
    test_lines_and_marks();
}
