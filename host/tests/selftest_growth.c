/* Additions and walks, against cases worked out by hand. */
#include <inttypes.h>
#include <string.h>

#include "reference/add.h"
#include "reference/walk.h"
#include "selftest.h"
#include "tally.h"

#define TEN "ABCDEFGHIJ"
#define FORTY TEN TEN TEN TEN
#define ONE "EAS\0\2\0\1\1A\1" VALUES "\0"

static parsed_sheet parsed;
static made_sheet right;

/* Sheets and typed states with values of 7 and 258, and their number or their result. */
static const struct {
    const uint8_t *sheet;
    size_t n;
    const uint8_t *spelled;
    size_t m;
    uint32_t kind, number;
    const uint8_t *result;
    size_t length;
} additions[] = {
    {BYTES("EAS\0\2\0\0"), BYTES("A"), 1, 0, BYTES(ONE)},
    {BYTES("EAS\0\2\0\0"), BYTES("%41"), 1, 0, BYTES(ONE)},
    {BYTES(ONE), BYTES("%2f"), 3, 0, BYTES("EAS\0\2\0\2\1A\1" VALUES "\0\1/\3" VALUES "\0")},
    {BYTES("EAS\0\2\0\1\1A\1" VALUES "\2rm"), BYTES("a"), 2, 0,
     BYTES("EAS\0\2\0\2\1A\1" VALUES "\2rm\1a\2" VALUES "\0")},
    {BYTES("EAS\0\2\0\0"), BYTES(FORTY), 2, 0, BYTES("EAS\0\2\0\1\x28" FORTY "\2" VALUES "\0")},
    /* a name that only a remark has */
    {BYTES("EAS\0\2\0\1\1A\1" VALUES "\2\1B"), BYTES("B"), 1, 0,
     BYTES("EAS\0\2\0\2\1A\1" VALUES "\2\1B\1B\1" VALUES "\0")},
    {BYTES("EAS\0\1\0\0"), BYTES("A"), 1, 3, BYTES("")},
    {BYTES("EAS\0\1\0\1\0"), BYTES("A"), 1, 3, BYTES("")},
    {BYTES("EAS\0\3\0\0"), BYTES("A%"), 1, 3, BYTES("")},
    {BYTES("EAT\0\1\0\0"), BYTES("A"), 1, 2, BYTES("")},
    {BYTES("EAS\0\2\0\1\0"), BYTES("A%"), 9, 5, BYTES("")},
    {BYTES("EAS\0\2\0\1\1A\4" VALUES "\0"), BYTES("A%"), 1, 6, BYTES("")},
    {BYTES("EAS\0\2\0\2\1A\1" VALUES "\0\1A\1" VALUES "\0"), BYTES(""), 1, 16, BYTES("")},
    {BYTES(ONE "\0"), BYTES("A%"), 1, 4, BYTES("")},
    {BYTES(ONE), BYTES("A%"), 9, 7, BYTES("")},
    {BYTES(ONE), BYTES(FORTY "K/"), 1, 7, BYTES("")},
    {BYTES(ONE), BYTES(FORTY "K"), 9, 8, BYTES("")},
    {BYTES(ONE), BYTES(""), 0, 8, BYTES("")},
    {BYTES(ONE), BYTES("A"), 4, 6, BYTES("")},
    {BYTES(ONE), BYTES("B"), 257, 6, BYTES("")},
    {BYTES(ONE), BYTES("A"), 2, 16, BYTES("")},
    {BYTES(ONE), BYTES("%41"), 2, 16, BYTES("")},
};

static void test_additions(void) {
    for (size_t i = 0; i < LENGTH(additions); i++) {
        tally_case("addition", i);
        typed_state typed = {additions[i].spelled, additions[i].m, additions[i].kind, 7, 258};
        sheet_parse(&parsed, additions[i].sheet, additions[i].n);
        sheet_add(&right, &parsed, additions[i].sheet, additions[i].n, &typed);
        tally_check(right.number == additions[i].number && right.length == additions[i].length &&
                        memcmp(right.bytes, additions[i].result, right.length) == 0,
                    "number %" PRIu32 ", %zu bytes", right.number, right.length);
        test_wrong_results(&right);
    }
}

/* 256 records of 255 bytes end at 65,287; the remark of a last one makes every length up to 65,536. All other numbers
 * come before 19. */
static void test_long_additions(void) {
    static uint8_t sheet[SHEET_MAX_BYTES] = "EAS\0\2\1\1";
    for (size_t i = 0; i < 256; i++) {
        memcpy(sheet + 7 + 255 * i, (uint8_t[]){2, (uint8_t)i, 'x', 1}, 4);
        sheet[7 + 255 * i + 20] = 234;
    }
    memcpy(sheet + 65287, "\1A\1" VALUES, 19);
    for (unsigned remark = 200; remark <= 229; remark++) {
        size_t n = 65287 + 20 + remark;
        sheet[65306] = (uint8_t)remark;
        tally_case("long addition", remark);
        sheet_parse(&parsed, sheet, n);
        sheet_add(&right, &parsed, sheet, n, &(typed_state){BYTES("B"), 1, 0, 0});
        tally_check(parsed.number == 0 && right.number == (n <= 65516 ? 0 : 19) &&
                        right.length == (n <= 65516 ? n + 20 : 0),
                    "number %" PRIu32 ", %zu bytes", right.number, right.length);
        sheet_add(&right, &parsed, sheet, n, &(typed_state){BYTES("A"), 1, 0, 0});
        tally_check(right.number == 16, "a name that is there");
    }
    sheet_add(&right, &parsed, sheet, SHEET_MAX_BYTES, &(typed_state){BYTES("A"), 0, 0, 0});
    tally_check(right.number == 6, "an unknown kind");
    sheet_add(&right, &parsed, sheet, SHEET_MAX_BYTES, &(typed_state){BYTES("A%"), 0, 0, 0});
    tally_check(right.number == 7, "a wrong spelling");
}

/* Wrong steps, in exactly the line's room or a byte less: none may be taken. */
static void test_wrong_steps(eas_walk walk, const listing_line *line, eas_step made) {
    uint8_t written[LINE_MAX_BYTES];
    const eas_walk on = {walk.given + 1, walk.count}, raised = {walk.given, walk.count + 1}, none = {0, 0};
    const eas_step others[] = {
        {made.number + 1, made.length, made.walk},
        {14, 0, made.walk},
        {14, 0, walk},
        {made.number, made.length + 1, made.walk},
        {made.number, made.length, raised},
        {made.number, made.length, made.length > 0 ? walk : on},
        {made.number, made.length, none},
    };
    memcpy(written, line->bytes, line->length);
    tally_check(judge_step(&parsed, walk, line, line->length, made, written) == NULL, "the right step");
    for (size_t i = 0; i < LENGTH(others); i++)
        tally_check(judge_step(&parsed, walk, line, line->length, others[i], written) != NULL, "a wrong step %zu", i);
    for (size_t i = 0; i < line->length; i++) {
        written[i] ^= 1;
        tally_check(judge_step(&parsed, walk, line, line->length, made, written) != NULL, "another byte %zu", i);
        written[i] ^= 1;
    }
    if (made.length == 0)
        return;
    size_t room = line->length - 1;
    tally_check(judge_step(&parsed, walk, line, room, made, written) != NULL, "a line without room");
    tally_check(judge_step(&parsed, walk, line, room, (eas_step){14, 0, walk}, written) == NULL, "14 without room");
    tally_check(judge_step(&parsed, walk, line, room, (eas_step){14, 0, on}, written) != NULL, "14 that goes on");
    tally_check(judge_step(&parsed, walk, line, room, (eas_step){0, 0, walk}, written) != NULL, "nothing for 14");
}

/* A sheet of two records, and walks with the place of the record that is next, 2 for none. */
static void test_walks(void) {
    static const struct {
        eas_walk walk;
        size_t place;
    } walks[] = {{{1, 2}, 1},          {{0, 2}, 0}, {{0, 1}, 0},         {{0, UINT32_MAX}, 0},
                 {{1, UINT32_MAX}, 1}, {{2, 2}, 2}, {{2, 3}, 2},         {{1, 1}, 2},
                 {{2, 1}, 2},          {{3, 9}, 2}, {{65536, 65537}, 2}, {{UINT32_MAX, UINT32_MAX}, 2}};
    static const uint8_t sheet[] = "EAS\0\2\0\2\2A \1" VALUES "\3rem\1B\2" VALUES "\0";
    static const char *const shown[] = {"A%20 S -1 2 3\n", "B S -1 2 3\n"};
    const eas_answer answer = {.letter = 'S', .y = -1, .z = 2, .value = 3};
    sheet_parse(&parsed, sheet, sizeof sheet - 1);
    eas_begun begun = walk_begin(&parsed);
    tally_check(begun.number == 0 && begun.walk.given == 0 && begun.walk.count == 2, "a walk of two records");
    for (size_t i = 0; i < LENGTH(walks); i++) {
        tally_case("walk", i);
        listing_line line = {0};
        eas_walk walk = walks[i].walk;
        const eas_record *next = walk_next(&parsed, walk);
        bool left = walks[i].place < 2;
        tally_check(next == (left ? &parsed.records[walks[i].place] : NULL), "the next record");
        if (left)
            line = record_line(sheet, next, &answer);
        tally_check(!left || strcmp(line.bytes, shown[walks[i].place]) == 0, "its line");
        test_wrong_steps(walk, &line, (eas_step){0, line.length, {walk.given + left, walk.count}});
    }
}

/* A refused sheet begins no walk and gives its number in every step. */
static void test_refused_walks(void) {
    const listing_line none = {0};
    const uint8_t room[1] = {0};
    sheet_parse(&parsed, BYTES("EAS\0\2\0\2\1A\1" VALUES "\0\1A\1" VALUES "\0"));
    eas_begun begun = walk_begin(&parsed);
    tally_check(begun.number == 16 && begun.walk.given == 0 && begun.walk.count == 0, "no walk");
    for (uint32_t given = 0; given < 3; given++) {
        eas_walk walk = {given, 2};
        tally_case("refused walk", given);
        tally_check(judge_step(&parsed, walk, &none, 0, (eas_step){16, 0, walk}, room) == NULL, "the sheet's number");
        tally_check(judge_step(&parsed, walk, &none, 0, (eas_step){0, 0, walk}, room) != NULL, "nothing");
        tally_check(judge_step(&parsed, walk, &none, 0, (eas_step){14, 0, walk}, room) != NULL, "14");
        tally_check(judge_step(&parsed, walk, &none, 0, (eas_step){16, 0, {given, 0}}, room) != NULL, "another walk");
    }
}

void test_growth(void) {
    test_additions();
    test_long_additions();
    test_walks();
    test_refused_walks();
}
