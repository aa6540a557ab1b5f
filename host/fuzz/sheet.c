/* Fuzz driver for eas_check, eas_find, eas_remark, eas_record_at, eas_search, eas_plot, eas_line, eas_list,
 * eas_forward, eas_back, eas_begin, eas_next, eas_add and eas_evaluate.
 *
 * An input is: one byte of options, one byte with the length of a spelled name, the spelled name, and a sheet.
 *   option 1   the sheet's mark, version and count are put right
 *   option 2   each record's kind is made 1, 2 or 3
 *   option 4   each record's values are brought into their ranges
 *   option 8   the spelled name is that of a record, chosen by the length byte
 *   option 16  the right version is 2, not 1
 *   all the other options set: records are added up to the largest sheet or just past it, by the length byte's last
 *   bit; where its second-last one is set, up to the largest of version 1 that goes forward or just past that
 *
 * Sheets, records, remarks, conversions, walks and additions are compared with the plain C calculator, answers judged
 * by the listing's doubles. A sheet of version 2 is compared with one that has other remarks, a converted sheet with
 * its result; a walk goes on over a sheet to which a state is added. */
#include <stdio.h>
#include <stdlib.h>
#include <string.h>

#include "convert.h"
#include "growth.h"
#include "guard.h"
#include "judge.h"
#include "pair.h"
#include "plain/baseline.h"
#include "same.h"
#include "tools/limits.h"
#include "tools/record.h"

static guard sheet_guard, spelled_guard, output_guard;

static unsigned count_records(const uint8_t *sheet, size_t n) {
    unsigned count = 0;
    for (size_t at = HEAD, size; (size = record_size(sheet, n, at)) > 0; at += size)
        count++;
    return count;
}

static void repair_head(uint8_t *sheet, size_t n, unsigned options) {
    memcpy(sheet, options & 16 ? "EAS\0\2" : "EAS\0\1", 5);
    put_number(sheet + 5, 2, count_records(sheet, n));
}

static void repair_range(uint8_t *at, uint64_t least, uint64_t most) {
    uint64_t number = get_number(at, 8), span = most - least + 1;
    if (number < least || number > most)
        put_number(at, 8, least + number % span);
}

static void repair_records(uint8_t *sheet, size_t n, unsigned options) {
    for (size_t at = HEAD, size; (size = record_size(sheet, n, at)) > 0; at += size) {
        uint8_t *rest = sheet + at + 1 + sheet[at];
        if (options & 2 && (rest[0] < 1 || rest[0] > 3))
            rest[0] = rest[0] % 3 + 1;
        if (!(options & 4))
            continue;
        if (rest[0] == 1)
            repair_range(rest + 1, LEAST_PRESSURE, MOST_PRESSURE);
        else
            repair_range(rest + 1, LEAST_ENERGY, MOST_ENERGY);
        repair_range(rest + 9, LEAST_DENSITY, MOST_DENSITY);
    }
}

/* Appends records with names of two bytes, in version 2 with remarks of up to three bytes, as many as `choice` says;
 * returns the new length. A sheet that is to go forward gets a byte more for each record. */
static size_t enlarge(uint8_t *sheet, size_t n, unsigned choice) {
    static const uint8_t rest[17] = {1, 0, 0, 0, 0x17, 0x97, 0xbd, 0x18, 0x80, 0, 0, 0, 0x1e, 0x14, 0xeb, 0x8c, 0};
    const size_t more = sheet[4] == 1 && choice & 2;
    size_t at = HEAD, size, most = SHEET_MOST + (choice & 1) * (more ? 21u : 48u);
    for (; (size = record_size(sheet, n, at)) > 0; at += size)
        most -= more;
    for (unsigned name = 0; at + more + (size = sheet[4] == 2 ? 21 + name % 4 : 20) <= most; name++, at += size) {
        sheet[at] = 2;
        put_number(sheet + at + 1, 2, name);
        memcpy(sheet + at + 3, rest, sizeof rest);
        memset(sheet + at + 20, (int)(name % 4), size - 20);
        most -= more;
    }
    return at;
}

/* The spelling of the record that `choice` picks, or nothing. */
static size_t pick_name(const uint8_t *sheet, size_t n, uint8_t choice, uint8_t spelled[SPELLED_MOST]) {
    unsigned count = count_records(sheet, n), left = count ? choice % count : 0;
    for (size_t at = HEAD, size; (size = record_size(sheet, n, at)) > 0; at += size)
        if (left-- == 0)
            return baseline_spell(sheet + at + 1, sheet[at], spelled, SPELLED_MOST).length;
    return 0;
}

static void check_find(query q, const eas_record *found) {
    uint8_t name[NAME_MOST];
    eas_record plain = baseline_find(q.sheet, q.n, q.spelled, q.m);
    require(found->number == plain.number, "eas_find's number is the plain search's");
    require(found->kind == plain.kind && found->first == plain.first && found->second == plain.second,
            "a record's values");
    require(found->start == plain.start && found->length == plain.length, "where a name stands");
    if (found->number)
        return;
    eas_text read = eas_read(q.spelled, q.m, name, sizeof name);
    require(!read.number && read.length == found->length, "a found name has its spelling's length");
    require(!memcmp(q.sheet + found->start, name, read.length), "the part of the sheet handed back holds the name");
}

/* A remark stands behind its record's values, in version 2 behind its length byte too. */
static void check_remark(query q, const eas_record *found) {
    eas_part remark = eas_remark(q.sheet, q.n, q.spelled, q.m), plain = baseline_remark(q.sheet, q.n, q.spelled, q.m);
    require(remark.number == found->number, "a remark is refused exactly where its record is");
    require(same_part(remark, plain), "eas_remark is the plain search's");
    if (remark.number)
        return;
    size_t behind = found->start + found->length + RECORD_REST;
    require(remark.start == behind + (q.sheet[4] == 2) && remark.length <= q.n - remark.start, "where a remark stands");
}

static void check_mark(query q, const eas_answer *a) {
    eas_mark mark = eas_plot(q.sheet, q.n, q.spelled, q.m);
    require(mark.blank == a->number, "a mark is blank exactly where the search refuses");
    int64_t value = a->letter == 'P' ? a->value / 1000000 : a->value;
    double across = a->number ? 0 : (double)a->y + 7000000, up = a->number ? 0 : (double)value;
    require(mark.point.across == across && mark.point.up == up, "a mark's point");
}

/* The listing line that belongs to an answer. Where the sheet is refused only the number is compared. */
static int line_agrees(query q, const eas_answer *a, const char *line, size_t length) {
    uint8_t name[NAME_MOST];
    char expected[256], spelled[SPELLED_MOST + 1] = "?";
    eas_text read = eas_read(q.spelled, q.m, name, sizeof name);
    if (!read.number)
        spelled[eas_spell(name, read.length, (uint8_t *)spelled, SPELLED_MOST).length] = 0;
    int sheet_refused = eas_check(q.sheet, q.n) != 0;
    if (a->number)
        snprintf(expected, sizeof expected, "%s ! %u\n", sheet_refused ? "" : spelled, a->number);
    else
        snprintf(expected, sizeof expected, "%s %c %lld %lld %lld\n", spelled, (char)a->letter, (long long)a->y,
                 (long long)a->z, (long long)a->value);
    size_t wanted = strlen(expected);
    if (sheet_refused)
        return length >= wanted && !memcmp(line + length - wanted, expected, wanted);
    return length == wanted && !memcmp(line, expected, wanted);
}

static void check_line(query q, const eas_answer *a) {
    uint8_t *whole = guard_take(&output_guard, NULL, LINE_MOST);
    eas_text text = eas_line(q.sheet, q.n, q.spelled, q.m, whole, LINE_MOST);
    require(text.number == 0 && text.length <= LINE_MOST, "a listing line fits 192 bytes");
    require(line_agrees(q, a, (char *)whole, text.length), "a listing line shows the answer");
    require(guard_kept(&output_guard, LINE_MOST, text.length), "eas_line writes a prefix only");
    uint8_t kept[LINE_MOST];
    memcpy(kept, whole, text.length);
    uint8_t *exact = guard_take(&output_guard, NULL, text.length);
    eas_text again = eas_line(q.sheet, q.n, q.spelled, q.m, exact, text.length);
    require(again.number == 0 && again.length == text.length && !memcmp(exact, kept, text.length),
            "a line of exact room");
    size_t room = text.length - 1;
    eas_text cut = eas_line(q.sheet, q.n, q.spelled, q.m, guard_take(&output_guard, NULL, room), room);
    require(cut.number == 14 && cut.length == 0 && guard_kept(&output_guard, room, 0),
            "a line without room is refused");
}

/* Each record is the one that is found by its name; behind the last there is none. */
static void check_places(query q, uint32_t number) {
    unsigned count = number ? 0 : record_count(q.sheet);
    eas_record none = eas_record_at(q.sheet, q.n, count);
    require(none.number == (number ? number : 9) && none.length == 0, "no record behind the last");
    for (unsigned i = 0; i < count && i < 40; i++) {
        uint8_t spelled[SPELLED_MOST];
        eas_record at = eas_record_at(q.sheet, q.n, i);
        require(at.number == 0, "a record at its place");
        size_t m = eas_spell(q.sheet + at.start, at.length, spelled, sizeof spelled).length;
        eas_record found = eas_find(q.sheet, q.n, spelled, m);
        require(same_record(found, at), "a record at its place is the one with its name");
    }
}

/* The spelled bytes as a run list: the lines of its names one after the other, or the sheet's one line. */
static size_t join_lines(query q, uint32_t number, char *out) {
    size_t used = 0;
    if (number)
        return (size_t)sprintf(out, "sheet ! %u\n", number);
    for (size_t at = 0, end; at < q.m; at = end + 1) {
        const uint8_t *stop = memchr(q.spelled + at, '\n', q.m - at);
        end = stop ? (size_t)(stop - q.spelled) : q.m;
        used += eas_line(q.sheet, q.n, q.spelled + at, end - at, (uint8_t *)out + used, LINE_MOST).length;
    }
    return used;
}

static void check_list(query q, uint32_t number) {
    static char expected[256 * LINE_MOST];
    size_t wanted = join_lines(q, number, expected);
    uint8_t *out = guard_take(&output_guard, NULL, wanted);
    eas_text text = eas_list(q.sheet, q.n, q.spelled, q.m, out, wanted);
    require(text.number == 0 && text.length == wanted, "a listing has its lines' length");
    require(wanted == 0 || !memcmp(out, expected, wanted), "a listing is its lines");
    if (wanted == 0)
        return;
    eas_text cut = eas_list(q.sheet, q.n, q.spelled, q.m, guard_take(&output_guard, NULL, wanted - 1), wanted - 1);
    require(cut.number == 14 && cut.length == 0 && guard_kept(&output_guard, wanted - 1, 0),
            "a listing without room is refused");
}

static void check_query(query q) {
    uint32_t number = eas_check(q.sheet, q.n);
    require(number == baseline_check(q.sheet, q.n), "eas_check's number is the plain check's");
    eas_record found = eas_find(q.sheet, q.n, q.spelled, q.m);
    check_find(q, &found);
    check_remark(q, &found);
    eas_answer a = eas_search(q.sheet, q.n, q.spelled, q.m), again = eas_search(q.sheet, q.n, q.spelled, q.m);
    require(same_answer(&a, &again), "a repeated search gives the same");
    eas_answer direct = {.number = found.number};
    if (!found.number)
        direct = eas_evaluate((uint8_t)found.kind, found.first, found.second);
    require(same_answer(&a, &direct), "a search's answer is its record's");
    if (!found.number)
        judge((uint8_t)found.kind, found.first, found.second, &a);
    check_mark(q, &a);
    check_line(q, &a);
    check_places(q, number);
    check_list(q, number);
}

/* A state outside a sheet, of any kind. */
static void check_state(const uint8_t *bytes, size_t n) {
    if (n < 17)
        return;
    uint64_t first = get_number(bytes + 1, 8), second = get_number(bytes + 9, 8);
    eas_answer a = eas_evaluate(bytes[0], first, second);
    judge(bytes[0], first, second, &a);
}

int LLVMFuzzerTestOneInput(const uint8_t *data, size_t size);

int LLVMFuzzerTestOneInput(const uint8_t *data, size_t size) {
    static uint8_t sheet[ROOM_MOST];
    uint8_t picked[SPELLED_MOST];
    if (size < 2 || size - 2 < data[1] || size > SHEET_MOST)
        return 0;
    unsigned options = data[0];
    const uint8_t *spelled = data + 2;
    size_t m = data[1], n = size - 2 - m;
    memcpy(sheet, spelled + m, n);
    if (options & 1 && n >= HEAD) {
        repair_head(sheet, n, options);
        if ((options | 16) == 255)
            n = enlarge(sheet, n, data[1]);
        repair_head(sheet, n, options);
        repair_records(sheet, n, options);
    }
    if (options & 8) {
        m = pick_name(sheet, n, data[1], picked);
        spelled = picked;
    }
    query q = {guard_take(&sheet_guard, sheet, n), guard_take(&spelled_guard, spelled, m), n, m};
    check_query(q);
    check_state(sheet, n);
    check_conversions(q);
    check_growth(q);
    if (n >= HEAD && n <= SHEET_MOST && sheet[3] == 0 && sheet[4] == 2)
        check_pair(q, data, size);
    require(n == 0 || !memcmp(q.sheet, sheet, n), "no call changes the sheet");
    require(m == 0 || !memcmp(q.spelled, spelled, m), "no call changes the spelling");
    return 0;
}
