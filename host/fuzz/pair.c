#include "pair.h"

#include <string.h>

#include "guard.h"
#include "judge.h"
#include "plain/baseline.h"
#include "same.h"
#include "tools/record.h"

static guard other_guard;

size_t values_size(const uint8_t *sheet, size_t n, size_t at) {
    if (at >= n || sheet[at] == 0 || sheet[at] > NAME_MOST)
        return 0;
    size_t size = 1u + sheet[at] + RECORD_REST;
    return n - at >= size ? size : 0;
}

size_t record_size(const uint8_t *sheet, size_t n, size_t at) {
    size_t size = values_size(sheet, n, at);
    if (size == 0 || sheet[4] != 2)
        return size;
    if (n - at == size)
        return 0;
    size += 1u + sheet[at + size];
    return n - at >= size ? size : 0;
}

/* Bytes to make remarks of, over and over. */
typedef struct {
    const uint8_t *bytes;
    size_t size, next;
} supply;

static uint8_t take(supply *from) {
    return from->bytes[from->next++ % from->size];
}

/* Writes a remark, cut where that is asked for, into a room that has a byte at least where it is not; returns its size.
 */
static size_t put_remark(uint8_t *to, supply *from, size_t room, int cut) {
    size_t length = take(from);
    if (length >= room)
        length = room > 0 ? room - 1 : 0;
    if (cut && length == 0)
        return 0;
    size_t there = cut ? take(from) % length : length;
    to[0] = (uint8_t)length;
    for (size_t i = 1; i <= there; i++)
        to[i] = take(from);
    return 1 + there;
}

/* A remark that is cut becomes another one that is; what is no record stays. */
static size_t change_remarks(uint8_t *to, const uint8_t *sheet, size_t n, supply *from) {
    size_t at = HEAD, end = HEAD, values;
    memcpy(to, sheet, HEAD);
    while ((values = values_size(sheet, n, at)) > 0) {
        size_t left = n - at - values, remark = left == 0 ? 1 : 1u + sheet[at + values];
        int cut = left < remark;
        if (cut)
            remark = left;
        memcpy(to + end, sheet + at, values);
        end += values;
        end += put_remark(to + end, from, SHEET_MOST - end - (left - remark), cut);
        at += values + remark;
    }
    memcpy(to + end, sheet + at, n - at);
    return end + (n - at);
}

static void check_texts(query a, query b) {
    static uint8_t first[256 * LINE_MOST], second[256 * LINE_MOST];
    eas_text x = eas_line(a.sheet, a.n, a.spelled, a.m, first, LINE_MOST);
    eas_text y = eas_line(b.sheet, b.n, b.spelled, b.m, second, LINE_MOST);
    require(x.number == 0 && y.number == 0 && x.length == y.length && !memcmp(first, second, x.length),
            "equal lines of two sheets");
    x = eas_list(a.sheet, a.n, a.spelled, a.m, first, sizeof first);
    y = eas_list(b.sheet, b.n, b.spelled, b.m, second, sizeof second);
    require(x.number == 0 && y.number == 0 && x.length == y.length && !memcmp(first, second, x.length),
            "equal listings of two sheets");
}

static void check_records(query a, query b) {
    require(same_but_place(a.sheet, eas_find(a.sheet, a.n, a.spelled, a.m), b.sheet,
                           eas_find(b.sheet, b.n, b.spelled, b.m)),
            "equal found records of two sheets");
    for (unsigned i = 0; i <= record_count(a.sheet) && i < 8; i++)
        require(same_but_place(a.sheet, eas_record_at(a.sheet, a.n, i), b.sheet, eas_record_at(b.sheet, b.n, i)),
                "equal records at a place of two sheets");
}

/* The first steps of a walk; of a refused sheet those that it refuses. */
static void check_steps(query a, query b) {
    uint8_t first[LINE_MOST], second[LINE_MOST];
    eas_begun begun = eas_begin(a.sheet, a.n), other = eas_begin(b.sheet, b.n);
    require(begun.number == other.number && same_walk(begun.walk, other.walk), "equal walks of two sheets");
    for (uint32_t i = 0; i <= begun.walk.count && i < 8; i++) {
        eas_step x = eas_next(a.sheet, a.n, (eas_walk){i, begun.walk.count}, first, sizeof first);
        eas_step y = eas_next(b.sheet, b.n, (eas_walk){i, begun.walk.count}, second, sizeof second);
        require(x.number == y.number && x.length == y.length && same_walk(x.walk, y.walk) &&
                    !memcmp(first, second, x.length),
                "equal steps of two sheets");
    }
}

void check_alike(query q, query other) {
    size_t n = other.n;
    require(eas_check(q.sheet, q.n) == eas_check(other.sheet, n), "equal numbers of two sheets");
    eas_answer a = eas_search(q.sheet, q.n, q.spelled, q.m), b = eas_search(other.sheet, n, q.spelled, q.m);
    require(same_answer(&a, &b), "equal answers of two sheets");
    require(same_mark(eas_plot(q.sheet, q.n, q.spelled, q.m), eas_plot(other.sheet, n, q.spelled, q.m)),
            "equal marks of two sheets");
    check_records(q, other);
    check_texts(q, other);
    check_steps(q, other);
    eas_part remark = eas_remark(other.sheet, n, q.spelled, q.m);
    eas_part plain = baseline_remark(other.sheet, n, q.spelled, q.m);
    require(same_part(remark, plain), "the other sheet's own remark");
}

void check_pair(query q, const uint8_t *bytes, size_t size) {
    static uint8_t sheet[SHEET_MOST];
    supply from = {bytes, size, 0};
    size_t n = change_remarks(sheet, q.sheet, q.n, &from);
    query other = {guard_take(&other_guard, sheet, n), q.spelled, n, q.m};
    check_alike(q, other);
    require(!memcmp(other.sheet, sheet, n), "no call changes the other sheet");
}
