#include "convert.h"

#include <string.h>

#include "guard.h"
#include "plain/baseline.h"
#include "tools/convert.h"
#include "tools/record.h"

static guard result_guard, output_guard;

static void convert_into(query q, conversion *convert, conversion *plain, size_t room) {
    static uint8_t expected[ROOM_MOST];
    uint8_t *out = guard_take(&output_guard, NULL, room);
    eas_text right = plain(q.sheet, q.n, expected, room), text = convert(q.sheet, q.n, out, room);
    require(text.number == right.number && text.length == right.length, "a conversion's result is the plain one's");
    require(text.length == 0 || !memcmp(out, expected, text.length), "a conversion's bytes are the plain one's");
    require(guard_kept(&output_guard, room, text.length), "a conversion writes a prefix only");
}

/* In enough room for whatever might be written, in none, and in rooms around the result's length. */
static void check_way(query q, conversion *convert, conversion *plain, conversion *opposite) {
    static uint8_t result[ROOM_MOST];
    eas_text made = plain(q.sheet, q.n, result, sizeof result);
    const size_t enough = q.n + q.n / RECORD_LEAST + 1, rooms[] = {enough, 0, made.length, made.length - 1};
    for (int i = 0; i < (made.number ? 2 : 4); i++)
        convert_into(q, convert, plain, rooms[i]);
    if (made.number)
        return;
    query other = {guard_take(&result_guard, result, made.length), q.spelled, made.length, q.m};
    uint8_t *again = guard_take(&output_guard, NULL, q.n);
    eas_text back = opposite(other.sheet, other.n, again, q.n);
    require(back.number == 0 && back.length == q.n && !memcmp(again, q.sheet, q.n), "a result goes back to its sheet");
    check_alike(q, other);
    require(!memcmp(other.sheet, result, other.n), "no call changes a result");
}

void check_conversions(query q) {
    check_way(q, eas_forward, baseline_forward, eas_back);
    check_way(q, eas_back, baseline_back, eas_forward);
}
