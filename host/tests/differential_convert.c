/* Conversion: every sheet is given to both ways, in rooms around the length of its result. A result goes back to the
 * sheet's bytes, and every call answers it as it answers the sheet. */
#include <inttypes.h>
#include <stdio.h>
#include <string.h>

#include "differential.h"
#include "growth.h"
#include "lent.h"
#include "pairs.h"
#include "reach.h"
#include "reference/convert.h"
#include "tally.h"

enum { CONVERT_PART = 24, LARGE_EVERY = 500, NUMBERS = 19, LEAST_RECORD = 19 };
enum { FORWARD, BACK, WAYS };

static const struct {
    const char *name;
    uint64_t from;
    eas_text (*convert)(const uint8_t *sheet, size_t n, uint8_t *out, size_t room);
} ways[WAYS] = {{"eas_forward", 1, eas_forward}, {"eas_back", 2, eas_back}};

static lent_buffer sheet_lent, out_lent;

/* Numbers of sheets by way, without the 1 of a result; 14 by calls. */
static uint64_t by_number[WAYS][NUMBERS];

/* What must have been tried beyond the numbers. */
enum {
    NO_ROOM,
    SHORT_ROOM,
    EXACT_ROOM,
    LONGER_ROOM,
    REFUSED_ROOM,
    NULL_SHEET,
    NULL_ROOM,
    EMPTY_FORWARD,
    EMPTY_BACK,
    LONGEST_FORWARD,
    LONGEST_BACK,
    RESULT_BELOW,
    RESULT_MOST,
    RESULT_ABOVE,
    REMARK_FIRST,
    REMARK_MIDDLE,
    REMARK_LAST,
    REMARK_SHORTEST,
    REMARK_LONGEST,
    CLASSES
};

static struct {
    const char *title;
    uint64_t count;
} reached[CLASSES] = {
    [NO_ROOM] = {"an accepted sheet without room", 0},
    [SHORT_ROOM] = {"in a byte less than its result", 0},
    [EXACT_ROOM] = {"in its result's bytes", 0},
    [LONGER_ROOM] = {"in more", 0},
    [REFUSED_ROOM] = {"a refused sheet in enough room", 0},
    [NULL_SHEET] = {"no sheet", 0},
    [NULL_ROOM] = {"no room", 0},
    [EMPTY_FORWARD] = {"no records forward", 0},
    [EMPTY_BACK] = {"no records back", 0},
    [LONGEST_FORWARD] = {"65536 bytes of version 1", 0},
    [LONGEST_BACK] = {"65536 bytes back", 0},
    [RESULT_BELOW] = {"forward to 65535 bytes", 0},
    [RESULT_MOST] = {"to 65536", 0},
    [RESULT_ABOVE] = {"to 65537", 0},
    [REMARK_FIRST] = {"a remark in the first record alone", 0},
    [REMARK_MIDDLE] = {"in one between", 0},
    [REMARK_LAST] = {"in the last", 0},
    [REMARK_SHORTEST] = {"of 1 byte", 0},
    [REMARK_LONGEST] = {"of 255", 0},
};

static void reach_if(bool there, int what) {
    reached[what].count += there;
}

/* In three records or more: where the one remark that is not empty stands, and how long it is. */
static void count_remarks(const parsed_sheet *parsed) {
    size_t last = parsed->count - 1, place = 0, there = 0;
    for (size_t i = 0; i <= last; i++) {
        there += parsed->remarks[i].length > 0;
        if (parsed->remarks[i].length > 0)
            place = i;
    }
    if (there != 1 || last < 2)
        return;
    reach_if(true, place == 0 ? REMARK_FIRST : place == last ? REMARK_LAST : REMARK_MIDDLE);
    reach_if(parsed->remarks[place].length == 1, REMARK_SHORTEST);
    reach_if(parsed->remarks[place].length == 255, REMARK_LONGEST);
}

static void count_sheet(int way, const tried_sheet *sheet, const parsed_sheet *parsed, const made_sheet *right) {
    size_t result = sheet->n + parsed->count;
    bool read = parsed->number == 0 && parsed->version == ways[way].from;
    by_number[way][right->number] += right->number != 1 || !read;
    reach_if(right->number == 0 && parsed->count == 0, way == FORWARD ? EMPTY_FORWARD : EMPTY_BACK);
    reach_if(read && sheet->n == SHEET_MAX_BYTES, way == FORWARD ? LONGEST_FORWARD : LONGEST_BACK);
    if (read && way == FORWARD && result + 1 >= SHEET_MAX_BYTES && result <= SHEET_MAX_BYTES + 1)
        reach_if(true, RESULT_MOST + (int)(result - SHEET_MAX_BYTES));
    if (right->number == 18)
        count_remarks(parsed);
}

static void count_call(int way, const tried_sheet *sheet, const made_sheet *right, size_t room, bool nulls) {
    bool accepted = right->number == 0;
    by_number[way][14] += accepted && room < right->length;
    reach_if(accepted && room == 0, NO_ROOM);
    reach_if(accepted && room + 1 == right->length, SHORT_ROOM);
    reach_if(accepted && room == right->length, EXACT_ROOM);
    reach_if(accepted && room > right->length, LONGER_ROOM);
    reach_if(!accepted && room > sheet->n, REFUSED_ROOM);
    reach_if(nulls && sheet->n == 0, NULL_SHEET);
    reach_if(nulls && room == 0, NULL_ROOM);
}

/* One call on the sheet that is lent, with null pointers for what is empty where that is asked for. */
static void compare_room(int way, const tried_sheet *sheet, const made_sheet *right, size_t room, bool nulls) {
    uint8_t *out = lent_output(&out_lent, room);
    const uint8_t *at = nulls && sheet->n == 0 ? NULL : sheet_lent.bytes;
    eas_text got = ways[way].convert(at, sheet->n, nulls && room == 0 ? NULL : out, room);
    const char *wrong = judge_made(right, room, got, out);
    if (wrong == NULL && !lent_output_is(&out_lent, right->bytes, got.length))
        wrong = "a byte that is not the result's";
    if (wrong == NULL && !lent_input_kept(&sheet_lent, sheet->bytes))
        wrong = "the sheet's bytes";
    count_call(way, sheet, right, room, nulls);
    if (tally_check(wrong == NULL, "%s in %zu bytes: %s", ways[way].name, room, wrong))
        return;
    tally_note("got number %" PRIu32 " length %zu", got.number, got.length);
    tally_note("expected number %" PRIu32 " length %zu in enough room", right->number, right->length);
    tally_hex("sheet", sheet->bytes, sheet->n);
}

/* The result goes back to the sheet, and is answered as the sheet is. */
static void compare_result(random_source *r, int way, const tried_sheet *sheet, const parsed_sheet *parsed,
                           const made_sheet *right) {
    static tried_sheet result;
    static parsed_sheet result_parsed;
    memcpy(result.bytes, right->bytes, right->length);
    result.n = right->length;
    sheet_parse(&result_parsed, result.bytes, result.n);
    const uint8_t *at = lent_input(&sheet_lent, result.bytes, result.n);
    eas_text got = ways[1 - way].convert(at, result.n, lent_output(&out_lent, sheet->n), sheet->n);
    bool same = got.number == 0 && got.length == sheet->n && lent_output_is(&out_lent, sheet->bytes, sheet->n);
    if (!tally_check(same, "%s does not return to the sheet", ways[1 - way].name))
        tally_hex("sheet", sheet->bytes, sheet->n);
    sheet_pair p = {.sheet = {sheet, &result}, .parsed = {parsed, &result_parsed}};
    compare_pair(r, &p);
}

/* The rooms are none, one that is enough for whatever might be written, and three around the result's length. */
static void compare_way(random_source *r, int way, const tried_sheet *sheet, const parsed_sheet *parsed) {
    static made_sheet right;
    sheet_convert(&right, parsed, sheet->bytes, ways[way].from);
    size_t length = right.length, enough = sheet->n + sheet->n / LEAST_RECORD + 1 + random_below(r, 64);
    const size_t rooms[] = {0, enough, length, length - 1, length + 1};
    lent_input(&sheet_lent, sheet->bytes, sheet->n);
    for (int i = 0; i < (right.number != 0 ? 2 : 5); i++) {
        compare_room(way, sheet, &right, rooms[i], false);
        if (sheet->n == 0 || rooms[i] == 0)
            compare_room(way, sheet, &right, rooms[i], true);
    }
    count_sheet(way, sheet, parsed, &right);
    if (right.number == 0)
        compare_result(r, way, sheet, parsed, &right);
}

static void compare_sheet(random_source *r, const tried_sheet *sheet) {
    static parsed_sheet parsed;
    sheet_parse(&parsed, sheet->bytes, sheet->n);
    compare_growth(r, sheet, &parsed, 2);
    for (int way = 0; way < WAYS; way++)
        compare_way(r, way, sheet, &parsed);
}

/* A sheet whose numbers are known, forward and back, in enough room. */
static void compare_known(random_source *r, const tried_sheet *sheet, const uint32_t numbers[WAYS]) {
    const uint8_t *at = lent_input(&sheet_lent, sheet->bytes, sheet->n);
    for (int way = 0; way < WAYS; way++) {
        size_t room = 2 * sheet->n;
        eas_text got = ways[way].convert(at, sheet->n, lent_output(&out_lent, room), room);
        tally_check(got.number == numbers[way], "%s gives %" PRIu32 ", not %" PRIu32, ways[way].name, got.number,
                    numbers[way]);
    }
    compare_sheet(r, sheet);
}

/* Bytes that are written out, with their numbers forward and back. */
typedef struct {
    const uint8_t *bytes;
    size_t n;
    uint32_t numbers[WAYS];
} known_bytes;

/* Where several numbers apply the first one stands. 14 is tried with each of them. */
static const known_bytes fixed[] = {
    {SHEET(""), {2, 2}},
    {SHEET(HEAD("\1", "\0")), {0, 3}},
    {SHEET(HEAD("\2", "\0")), {3, 0}},
    {SHEET(HEAD("\1", "\1") RECORD("a", "\1")), {0, 3}},
    {SHEET(HEAD("\2", "\1") RECORD("a", "\1") "\0"), {3, 0}},
    {SHEET(HEAD("\2", "\1") RECORD("a", "\1") "\1x"), {3, 18}},
    {SHEET(HEAD("\2", "\2") RECORD("a", "\1") "\0" RECORD("b", "\3") "\1\0"), {3, 18}},
    {SHEET(HEAD("\2", "\2") RECORD("a", "\1") "\1\0" RECORD("b", "\3") "\0"), {3, 18}},
    /* 2 before 3 and what stands behind */
    {SHEET("EAS\0\3\0"), {2, 2}},
    {SHEET("EAT\0\3\0\0"), {2, 2}},
    {SHEET("EAT\0\1\0\1"), {2, 2}},
    {SHEET("EAT\0\2\0\1" RECORD("a", "\1") "\1x"), {2, 2}},
    /* 3 before each of 4, 5, 6, 16 and 18 */
    {SHEET(HEAD("\1", "\1")), {4, 3}},
    {SHEET(HEAD("\2", "\1")), {3, 4}},
    {SHEET(HEAD("\3", "\1")), {3, 3}},
    {SHEET(HEAD("\1", "\1") "\0"), {5, 3}},
    {SHEET(HEAD("\2", "\1") "\51"), {3, 5}},
    {SHEET(HEAD("\1", "\1") RECORD("a", "\4")), {6, 3}},
    {SHEET(HEAD("\2", "\1") RECORD("a", "\4") "\0"), {3, 6}},
    {SHEET(HEAD("\1", "\2") RECORD("a", "\1") RECORD("a", "\1")), {16, 3}},
    {SHEET(HEAD("\2", "\2") RECORD("a", "\1") "\0" RECORD("a", "\1") "\0"), {3, 16}},
    {SHEET(HEAD("\3", "\1") RECORD("a", "\1") "\1x"), {3, 3}},
    /* in a record 5 before 4, that before 6, 6 before 16; an earlier record's before a later one's */
    {SHEET(HEAD("\1", "\1") "\0\1"), {5, 3}},
    {SHEET(HEAD("\1", "\1") "\1a\4"), {4, 3}},
    {SHEET(HEAD("\2", "\1") RECORD("a", "\4")), {3, 4}},
    {SHEET(HEAD("\2", "\1") RECORD("a", "\4") "\2x"), {3, 4}},
    {SHEET(HEAD("\1", "\2") RECORD("a", "\1") "\1a\1"), {4, 3}},
    {SHEET(HEAD("\1", "\2") RECORD("a", "\1") RECORD("a", "\4")), {6, 3}},
    {SHEET(HEAD("\1", "\2") RECORD("a", "\4") "\0"), {6, 3}},
    {SHEET(HEAD("\2", "\3") RECORD("a", "\1") "\0" RECORD("a", "\1") "\0" RECORD("b", "\4") "\0"), {3, 16}},
    /* each of 4, 5, 6, 16 and bytes that are left over before 18, also where the remark comes first */
    {SHEET(HEAD("\2", "\2") RECORD("a", "\1") "\1x"), {3, 4}},
    {SHEET(HEAD("\2", "\2") RECORD("a", "\1") "\1x" RECORD("b", "\1")), {3, 4}},
    {SHEET(HEAD("\2", "\1") RECORD("a", "\1") "\2x"), {3, 4}},
    {SHEET(HEAD("\2", "\2") RECORD("a", "\1") "\1x\0"), {3, 5}},
    {SHEET(HEAD("\2", "\1") RECORD("a", "\4") "\1x"), {3, 6}},
    {SHEET(HEAD("\2", "\2") RECORD("a", "\1") "\1x" RECORD("b", "\4") "\0"), {3, 6}},
    {SHEET(HEAD("\2", "\2") RECORD("a", "\1") "\1x" RECORD("a", "\1") "\0"), {3, 16}},
    {SHEET(HEAD("\2", "\1") RECORD("a", "\1") "\1xy"), {3, 4}},
};

static void compare_fixed(random_source *r, tried_sheet *sheet) {
    for (size_t i = 0; i < sizeof fixed / sizeof *fixed; i++) {
        tally_case("fixed conversion", i);
        sheet->n = fixed[i].n;
        memcpy(sheet->bytes, fixed[i].bytes, fixed[i].n);
        compare_known(r, sheet, fixed[i].numbers);
    }
}

/* Every version but the one that a way reads gets 3, whatever stands behind it; the numbers are the read one's. */
static void compare_versions(random_source *r, tried_sheet *sheet) {
    static const unsigned versions[] = {0, 1, 2, 3, 256, 257, 512, 513};
    static const known_bytes behind[] = {
        {SHEET("\0\0"), {0, 0}},
        {SHEET("\0\1" RECORD("a", "\1")), {0, 4}},
        {SHEET("\0\1" RECORD("a", "\1") "\0"), {4, 0}},
        {SHEET("\0\1" RECORD("a", "\1") "\1x"), {4, 18}},
        {SHEET("\0\1\0"), {5, 5}},
    };
    enum { BEHIND = sizeof behind / sizeof *behind };
    for (size_t i = 0; i < sizeof versions / sizeof *versions * BEHIND; i++) {
        unsigned version = versions[i / BEHIND];
        const known_bytes *rest = &behind[i % BEHIND];
        tally_case("version", i);
        memcpy(sheet->bytes, "EAS", 3);
        sheet->bytes[3] = (uint8_t)(version >> 8);
        sheet->bytes[4] = (uint8_t)version;
        memcpy(sheet->bytes + 5, rest->bytes, rest->n);
        sheet->n = 5 + rest->n;
        compare_known(r, sheet,
                      (uint32_t[]){version == 1 ? rest->numbers[FORWARD] : 3, version == 2 ? rest->numbers[BACK] : 3});
    }
}

/* Lengths around the limits. A sheet of version 1 with 62,404 bytes has 256 records of 19 bytes, 2,875 of 20 and one of
 * 33: its result has 3,132 bytes more, which makes 65,536. */
static void compare_lengths(random_source *r, tried_sheet *sheet) {
    static const struct {
        int version;
        size_t n;
        uint32_t numbers[WAYS];
    } lengths[] = {
        {1, 7, {0, 3}},     {1, 26, {0, 3}},    {1, 62255, {0, 3}}, {1, 62256, {0, 3}}, {1, 62257, {0, 3}},
        {1, 62258, {0, 3}}, {1, 62259, {0, 3}}, {1, 62260, {0, 3}}, {1, 62403, {0, 3}}, {1, 62404, {0, 3}},
        {1, 62405, {1, 3}}, {1, 65535, {1, 3}}, {1, 65536, {1, 3}}, {1, 65537, {1, 1}}, {2, 7, {3, 0}},
        {2, 27, {3, 0}},    {2, 65535, {3, 0}}, {2, 65536, {3, 0}}, {2, 65537, {1, 1}},
    };
    for (size_t i = 0; i < sizeof lengths / sizeof *lengths; i++) {
        tally_case("length of a conversion", i);
        fullest_sheet(sheet, r, lengths[i].version, lengths[i].n);
        compare_known(r, sheet, lengths[i].numbers);
    }
}

/* A byte at a place that is changed. */
static void compare_changed(random_source *r, tried_sheet *sheet, size_t at, uint8_t byte, uint32_t forward,
                            uint32_t back) {
    uint8_t kept = sheet->bytes[at];
    sheet->bytes[at] = byte;
    compare_known(r, sheet, (uint32_t[]){forward, back});
    sheet->bytes[at] = kept;
}

/* Each of the sheet's own numbers before the 1 of its result: the last record of a sheet of version 1 whose result is
 * too long is damaged, which has a name of two bytes as the one before it. */
static void compare_long_results(random_source *r, tried_sheet *sheet) {
    const size_t n = 7 + 256 * 19 + 2877 * 20;
    tally_case("long result", 0);
    fullest_sheet(sheet, r, 1, n);
    compare_changed(r, sheet, 0, 'e', 2, 2);
    compare_changed(r, sheet, 4, 3, 3, 3);
    compare_changed(r, sheet, n - 20, 0, 5, 3);
    compare_changed(r, sheet, n - 20, 41, 5, 3);
    compare_changed(r, sheet, n - 20, 3, 4, 3);
    compare_changed(r, sheet, n - 17, 9, 6, 3);
    compare_changed(r, sheet, n - 18, sheet->bytes[n - 38], 16, 3);
    compare_changed(r, sheet, 6, (uint8_t)(sheet->bytes[6] - 1), 4, 3);
    sheet->n = n - 1;
    compare_known(r, sheet, (uint32_t[]){4, 3});
}

/* Makes the empty remark that starts at a place one of this many bytes. */
static void insert_remark(tried_sheet *sheet, size_t start, uint8_t length) {
    memmove(sheet->bytes + start + length, sheet->bytes + start, sheet->n - start);
    memset(sheet->bytes + start, 'r', length);
    sheet->bytes[start - 1] = length;
    sheet->n += length;
}

/* One remark that is not empty, in the first, a middle and the last record of a short sheet, of one that becomes as
 * long as a sheet may be, and of one that becomes longer. */
static void compare_remarked(random_source *r, tried_sheet *sheet) {
    static parsed_sheet parsed;
    static const uint8_t lengths[] = {1, 255};
    for (size_t i = 0; i < 18; i++) {
        uint8_t length = lengths[i % 2];
        const size_t ns[] = {200, SHEET_MAX_BYTES - length, SHEET_MAX_BYTES + 1u - length};
        tally_case("one remark", i);
        fullest_sheet(sheet, r, 2, ns[i / 6]);
        sheet_parse(&parsed, sheet->bytes, sheet->n);
        const size_t places[] = {0, parsed.count / 2, parsed.count - 1};
        insert_remark(sheet, parsed.remarks[places[i / 2 % 3]].start, length);
        bool within = sheet->n <= SHEET_MAX_BYTES;
        compare_known(r, sheet, (uint32_t[]){within ? 3 : 1, within ? 18 : 1});
    }
}

/* Sheets of both versions cut at every byte, with every count up to one too many. */
static void compare_cuts(random_source *r, tried_sheet *sheet) {
    for (int version = 1; version <= 2; version++) {
        fullest_sheet(sheet, r, version, 100);
        size_t counts = sheet->bytes[6] + 2u, cases = (sheet->n + 1) * counts;
        for (size_t i = 0; i < cases; i++) {
            tally_case("cut conversion", i);
            sheet->n = i / counts;
            sheet->bytes[6] = (uint8_t)(i % counts);
            compare_sheet(r, sheet);
        }
    }
}

static void check_reach(void) {
    static const uint32_t numbers[] = {0, 1, 2, 3, 4, 5, 6, 16, 14, 18};
    tally_case("reach of conversions", 0);
    reach_numbers("conversions forward by number", by_number[FORWARD], numbers, 9);
    reach_numbers("conversions back by number", by_number[BACK], numbers, 10);
    printf(" ");
    for (int i = 0; i < CLASSES; i++) {
        printf(" %s %" PRIu64 "%s", reached[i].title, reached[i].count, i + 1 < CLASSES ? "," : "\n");
        tally_check(reached[i].count > 0, "no conversion of %s", reached[i].title);
    }
}

void compare_conversions(uint64_t seed, uint64_t count) {
    static tried_sheet sheet;
    random_source edges = random_case(seed, CONVERT_PART, count);
    lent_open(&sheet_lent, SHEET_ROOM);
    lent_open(&out_lent, 2 * (size_t)SHEET_ROOM);
    compare_fixed(&edges, &sheet);
    compare_versions(&edges, &sheet);
    compare_lengths(&edges, &sheet);
    compare_long_results(&edges, &sheet);
    compare_remarked(&edges, &sheet);
    compare_cuts(&edges, &sheet);
    for (uint64_t i = 0; i < count; i++) {
        random_source r = random_case(seed, CONVERT_PART, i);
        tally_case("random conversion", i);
        if (i % 2 == 0)
            random_bare_sheet(&sheet, &r, i % LARGE_EVERY < 2);
        else
            random_sheet(&sheet, &r, i % LARGE_EVERY < 2);
        compare_sheet(&r, &sheet);
    }
    check_reach();
}
