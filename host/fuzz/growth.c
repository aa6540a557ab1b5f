#include "growth.h"

#include <string.h>

#include "guard.h"
#include "judge.h"
#include "plain/baseline.h"
#include "same.h"
#include "tools/record.h"
#include "typed.h"

enum { STEPS = 8 };

static guard line_guard, name_guard, grown_guard, output_guard;

/* The line of the record at a place, by eas_line. */
static size_t line_at(query q, size_t place, uint8_t line[LINE_MOST]) {
    uint8_t spelled[SPELLED_MOST];
    eas_record record = eas_record_at(q.sheet, q.n, place);
    size_t m = baseline_spell(q.sheet + record.start, record.length, spelled, sizeof spelled).length;
    return eas_line(q.sheet, q.n, spelled, m, line, LINE_MOST).length;
}

/* In enough room, in none, and in rooms around the line's length. A line in doubles may differ in its last digit. */
static void check_step(query q, eas_walk walk) {
    uint8_t line[LINE_MOST];
    eas_step right = baseline_next(q.sheet, q.n, walk, line, sizeof line);
    size_t length = right.length > 0 ? line_at(q, walk.given, line) : 0;
    const size_t rooms[] = {LINE_MOST, 0, length, length - 1};
    for (int i = 0; i < (length ? 4 : 2); i++) {
        int cut = rooms[i] < length;
        size_t written = cut ? 0 : length;
        uint8_t *out = guard_take(&line_guard, NULL, rooms[i]);
        eas_step step = eas_next(q.sheet, q.n, walk, out, rooms[i]);
        require(step.number == (cut ? 14 : right.number) && step.length == written, "a step's result");
        require(same_walk(step.walk, cut ? walk : right.walk), "a step's walk is the plain one's");
        require(written == 0 || !memcmp(out, line, written), "a step's line is that of its record's name");
        require(guard_kept(&line_guard, rooms[i], written), "a step writes a prefix only");
    }
}

/* The first records and the ends, that of the walk and that of the sheet. */
static void check_walk(query q) {
    eas_begun begun = eas_begin(q.sheet, q.n), plain = baseline_begin(q.sheet, q.n);
    require(begun.number == plain.number && same_walk(begun.walk, plain.walk), "a walk begins as the plain one");
    const uint32_t count = begun.walk.count;
    for (uint32_t i = 0; i < count && i < STEPS; i++)
        check_step(q, (eas_walk){i, count});
    const eas_walk others[] = {{0, 0},          {count, count},      {count, count + 1}, {count + 1, count},
                               {0, UINT32_MAX}, {65536, UINT32_MAX}, {0, 65536},         {count / 2, count / 2}};
    for (size_t i = 0; i < sizeof others / sizeof *others; i++)
        check_step(q, others[i]);
}

static void add_into(query q, const typed_state *t, size_t room) {
    static uint8_t expected[ROOM_MOST];
    uint8_t *out = guard_take(&output_guard, NULL, room);
    eas_text right = baseline_add(q.sheet, q.n, t->spelled, t->m, t->kind, t->first, t->second, expected, room);
    eas_text text = eas_add(q.sheet, q.n, t->spelled, t->m, t->kind, t->first, t->second, out, room);
    require(text.number == right.number && text.length == right.length, "an addition's result is the plain one's");
    require(text.length == 0 || !memcmp(out, expected, text.length), "an addition's bytes are the plain one's");
    require(guard_kept(&output_guard, room, text.length), "an addition writes a prefix only");
}

/* A walk that began on the sheet goes on over the grown one as if nothing had been added. */
static void check_goes_on(query q, query grown) {
    uint8_t line[LINE_MOST], other[LINE_MOST];
    const uint32_t count = eas_begin(q.sheet, q.n).walk.count;
    for (uint32_t back = 0; back <= count && back < STEPS; back++) {
        eas_walk walk = {count - back, count};
        eas_step a = eas_next(q.sheet, q.n, walk, line, sizeof line);
        eas_step b = eas_next(grown.sheet, grown.n, walk, other, sizeof other);
        require(a.number == b.number && a.length == b.length && same_walk(a.walk, b.walk), "a walk goes on as it was");
        require(!memcmp(line, other, a.length), "a walk's line is as it was");
    }
    require(eas_begin(grown.sheet, grown.n).walk.count == count + 1, "a walk begun later covers one more");
    check_step(grown, (eas_walk){count, count + 1});
}

/* The new name has its state's answer, any other has what it had, in its place. */
static void check_names(query q, query grown, const typed_state *t) {
    eas_answer own = eas_evaluate(t->kind, t->first, t->second);
    eas_answer found = eas_search(grown.sheet, grown.n, t->spelled, t->m);
    require(same_answer(&own, &found), "an added state is found");
    eas_record before = eas_find(q.sheet, q.n, q.spelled, q.m);
    if (before.number == 9)
        return;
    require(same_record(before, eas_find(grown.sheet, grown.n, q.spelled, q.m)), "a record is found where it was");
    require(same_part(eas_remark(q.sheet, q.n, q.spelled, q.m), eas_remark(grown.sheet, grown.n, q.spelled, q.m)),
            "a remark stands where it was");
}

static void check_addition(query q, const typed_state *t) {
    static uint8_t result[ROOM_MOST];
    eas_text made = baseline_add(q.sheet, q.n, t->spelled, t->m, t->kind, t->first, t->second, result, sizeof result);
    const size_t rooms[] = {q.n + 19 + NAME_MOST + 1, 0, made.length, made.length - 1};
    for (int i = 0; i < (made.number ? 2 : 4); i++)
        add_into(q, t, rooms[i]);
    if (made.number)
        return;
    query grown = {guard_take(&grown_guard, result, made.length), q.spelled, made.length, q.m};
    require(eas_check(grown.sheet, grown.n) == 0, "a grown sheet is accepted");
    check_goes_on(q, grown);
    check_names(q, grown, t);
    require(!memcmp(grown.sheet, result, grown.n), "no call changes a grown sheet");
}

/* The length of a name that fills the sheet up to 65,536 bytes where one can, else the longest. */
static size_t filling_name(size_t n) {
    size_t left = n + 20 <= SHEET_MOST ? SHEET_MOST - n - 19 : 0;
    return left > 0 && left <= NAME_MOST ? left : NAME_MOST;
}

/* Names of n's, around the one that fills the sheet. */
static void check_filling(query q, typed_state t) {
    uint8_t letters[NAME_MOST + 1];
    memset(letters, 'n', sizeof letters);
    for (int more = -1; more <= 1; more++) {
        t.m = filling_name(q.n) + (size_t)more;
        t.spelled = guard_take(&name_guard, letters, t.m);
        check_addition(q, &t);
    }
}

/* The kind is made of the four bytes before the last 16, which are the values; then it is made a known one. */
void check_growth(query q) {
    static const uint8_t none[20];
    const uint8_t *last = q.n < sizeof none ? none : q.sheet + q.n - sizeof none;
    typed_state t = {q.spelled, q.m, (uint32_t)get_number(last, 4), get_number(last + 4, 8), get_number(last + 12, 8)};
    check_walk(q);
    check_addition(q, &t);
    t.kind = 1 + t.kind % 3;
    check_addition(q, &t);
    check_filling(q, t);
    t.kind += 256;
    check_addition(q, &t);
}
