/* Linked in front of the library by the linker's --wrap, this gives the answers of a wrong calculator. In the
 * environment FAULT is the fault, of which 1 to 5 must be found by the check of that number in the checklist; ENTRY is
 * the one entry that has it: search, plot, line, list, next, find, record_at, remark, forward, back or add, and without
 * ENTRY, or with an empty one, all have it and eas_evaluate too; LETTER is the one letter of answers that have it,
 * where that is given and not empty.
 *
 *   1  the search gives 9 for every name with a percent form
 *   2  a name of digits is taken as the number of a row
 *   3  the lower band's polynomials are used from each density edge to 0.01 above its strip
 *   4  a sign is lost in the weight of the temperatures and pressures alone, while the fits and weights look right
 *   5  refusals 12, 13 and 17 are replaced by 5,000 K
 *   6  a perfect gas is a microkelvin too hot, for the states that no check looks at
 *   7  fits are not joined: each has the polynomials of its own density's band; check 3 must find it
 *   8  the ends of a joined pressure have the densities of the strip's ends, as in the listing; check 3 must find it
 *   9  no state that has a remark is found; the line of remarks must find it
 *  10  a conversion loses the last state; the line of conversions must find it
 *  11  a conversion to version 1 drops remarks, where 18 is due; the line of conversions must find it
 *  12  a state is added by its name as it is spelled, never decoded; the line of added states must find it
 *  13  a walk goes on over states that were added after its beginning; the line of added states must find it
 *  14  eas_find gives the place of the next record's name; the line of remarks must find it
 *  15  eas_record_at counts from 1; check 2 must find it
 *  16  eas_remark gives every remark from the sheet's first byte on; the line of remarks must find it
 *  17  eas_remark gives the remark of the next record; the line of remarks must find it
 */
#include <ctype.h>
#include <math.h>
#include <stdlib.h>
#include <string.h>

#include "reference/answer.h"
#include "reference/line.h"
#include "reference/name.h"
#include "reference/sheet.h"
#include "tools/record.h"

/* The linker's --wrap gives these names. NOLINTBEGIN(bugprone-reserved-identifier) */
eas_answer __real_eas_search(const uint8_t *sheet, size_t n, const uint8_t *spelled, size_t m);
eas_answer __real_eas_evaluate(uint32_t kind, uint64_t first, uint64_t second);
eas_mark __real_eas_plot(const uint8_t *sheet, size_t n, const uint8_t *spelled, size_t m);
eas_text __real_eas_line(const uint8_t *sheet, size_t n, const uint8_t *spelled, size_t m, uint8_t *out, size_t room);
eas_text __real_eas_list(const uint8_t *sheet, size_t n, const uint8_t *names, size_t m, uint8_t *out, size_t room);
eas_text __real_eas_forward(const uint8_t *sheet, size_t n, uint8_t *out, size_t room);
eas_text __real_eas_back(const uint8_t *sheet, size_t n, uint8_t *out, size_t room);
eas_step __real_eas_next(const uint8_t *sheet, size_t n, eas_walk walk, uint8_t *out, size_t room);
eas_record __real_eas_find(const uint8_t *sheet, size_t n, const uint8_t *spelled, size_t m);
eas_record __real_eas_record_at(const uint8_t *sheet, size_t n, size_t i);
eas_part __real_eas_remark(const uint8_t *sheet, size_t n, const uint8_t *spelled, size_t m);
eas_text __real_eas_add(const uint8_t *sheet, size_t n, const uint8_t *spelled, size_t m, uint32_t kind, uint64_t first,
                        uint64_t second, uint8_t *out, size_t room);
eas_answer __wrap_eas_search(const uint8_t *sheet, size_t n, const uint8_t *spelled, size_t m);
eas_answer __wrap_eas_evaluate(uint32_t kind, uint64_t first, uint64_t second);
eas_mark __wrap_eas_plot(const uint8_t *sheet, size_t n, const uint8_t *spelled, size_t m);
eas_text __wrap_eas_line(const uint8_t *sheet, size_t n, const uint8_t *spelled, size_t m, uint8_t *out, size_t room);
eas_text __wrap_eas_list(const uint8_t *sheet, size_t n, const uint8_t *names, size_t m, uint8_t *out, size_t room);
eas_text __wrap_eas_forward(const uint8_t *sheet, size_t n, uint8_t *out, size_t room);
eas_text __wrap_eas_back(const uint8_t *sheet, size_t n, uint8_t *out, size_t room);
eas_step __wrap_eas_next(const uint8_t *sheet, size_t n, eas_walk walk, uint8_t *out, size_t room);
eas_record __wrap_eas_find(const uint8_t *sheet, size_t n, const uint8_t *spelled, size_t m);
eas_record __wrap_eas_record_at(const uint8_t *sheet, size_t n, size_t i);
eas_part __wrap_eas_remark(const uint8_t *sheet, size_t n, const uint8_t *spelled, size_t m);
eas_text __wrap_eas_add(const uint8_t *sheet, size_t n, const uint8_t *spelled, size_t m, uint32_t kind, uint64_t first,
                        uint64_t second, uint8_t *out, size_t room);
/* NOLINTEND(bugprone-reserved-identifier) */

static const int64_t ONE = 10000000000;

static int fault(void) {
    const char *number = getenv("FAULT");
    return number ? (int)strtol(number, NULL, 10) : 0;
}

static bool has_fault(const char *entry) {
    const char *only = getenv("ENTRY");
    return !only || !*only || !strcmp(only, entry);
}

static bool has_letter(uint32_t letter) {
    const char *only = getenv("LETTER");
    return !only || !*only || (uint32_t)*only == letter;
}

/* The records of the sheet that was read last. */
static parsed_sheet parsed;

/* Reads the sheet; the record, from 0, of the row that the digits number from 1, or SIZE_MAX. */
static size_t numbered_row(const uint8_t *sheet, size_t n, const uint8_t *digits, size_t m) {
    uint64_t row = 0;
    for (size_t i = 0; i < m; i++) {
        if (!isdigit(digits[i]) || row > SHEET_MAX_RECORDS)
            return SIZE_MAX;
        row = 10 * row + (uint64_t)(digits[i] - '0');
    }
    sheet_parse(&parsed, sheet, n);
    return row == 0 || row > parsed.count ? SIZE_MAX : row - 1;
}

/* Reads the sheet; the record behind the one whose name starts at a place, or the first one. */
static size_t next_record(const uint8_t *sheet, size_t n, size_t start) {
    size_t i = 0;
    sheet_parse(&parsed, sheet, n);
    while (i < parsed.count && parsed.records[i].start != start)
        i++;
    return i + 1 < parsed.count ? i + 1 : 0;
}

/* The answer of the row that the digits number; of the name where there is no such row. */
static eas_answer row_answer(const uint8_t *sheet, size_t n, const uint8_t *digits, size_t m, eas_answer own) {
    size_t row = numbered_row(sheet, n, digits, m);
    if (row == SIZE_MAX)
        return own;
    const eas_record *record = &parsed.records[row];
    return __real_eas_evaluate(record->kind, record->first, record->second);
}

/* Whether a name is wrongly not found. */
static bool is_lost(const uint8_t *sheet, size_t n, const uint8_t *spelled, size_t m) {
    return (fault() == 1 && memchr(spelled, '%', m)) ||
           (fault() == 9 && __real_eas_remark(sheet, n, spelled, m).length > 0);
}

static fitted_property property_of(const eas_answer *a) {
    return a->letter == 'T' ? TEMPERATURE : PRESSURE;
}

/* The value of a fit beside a right one of the same state, or for a pressure at another density: a pressure goes with
 * gamma less 1, which spares the state's own energy and density here. */
static int64_t value_beside(const eas_answer *a, int64_t right_fit, int64_t right, int64_t fit, int64_t millionths) {
    if (a->letter == 'T')
        return llrintl((long double)T0 * powl(10, (long double)fit / (long double)ONE));
    long double ratio = (long double)(fit - ONE) / (long double)(right_fit - ONE);
    return llrintl((long double)right * ratio * powl(10, (long double)millionths / 1e6L));
}

/* By the curves of the range that holds range_y, at the state's own density. */
static void use_one_range(eas_answer *a, int64_t range_y) {
    const fit_piece *piece = piece_at(property_of(a), range_y, a->z);
    int64_t weight = nearest_weight(piece, a->y, a->z), fit = (int64_t)fitted(piece, a->y, a->z, weight);
    a->value = value_beside(a, a->low.fit, a->low.value ? a->low.value : a->value, fit, 0);
    a->low = (eas_edge){.fit = fit, .weight = weight};
    a->high = (eas_edge){0};
    a->carries &= ~(uint32_t)EAS_CARRIES_HIGH;
}

static void use_lower_band(eas_answer *a) {
    for (int i = 0; i < STRIPS; i++) {
        const density_strip *strip = &density_strips[i];
        if (a->y > (strip->lower + strip->upper) / 2 && a->y <= strip->upper + 10000)
            use_one_range(a, strip->lower);
    }
}

/* A fit's value with the sign lost: below 0 the exponent's weight is 1 less that of its size; in a minus transition the
 * exponential is added to 1. */
static int64_t without_sign(const eas_answer *a, int64_t y, const eas_edge *edge, int64_t value) {
    fit_piece piece = *piece_at(property_of(a), y, a->z);
    int64_t weight = ONE - edge->weight;
    if (!piece.weighed || (!piece.minus && exponent(&piece, y, a->z) >= 0))
        return value;
    if (piece.minus) {
        piece.minus = false;
        weight = nearest_weight(&piece, y, a->z);
    }
    return value_beside(a, edge->fit, value, (int64_t)fitted(&piece, y, a->z, weight), 0);
}

static void lose_sign(eas_answer *a) {
    density_strip strip;
    if (!strip_of(a->y, &strip)) {
        a->value = without_sign(a, a->y, &a->low, a->value);
        return;
    }
    a->low.value = without_sign(a, strip.lower, &a->low, a->low.value);
    a->high.value = without_sign(a, strip.upper, &a->high, a->high.value);
    a->value = (int64_t)straight_line(&strip, a->y, a->low.value, a->high.value);
}

static void use_end_densities(eas_answer *a) {
    density_strip strip;
    if (!strip_of(a->y, &strip))
        return;
    a->low.value = value_beside(a, a->low.fit, a->low.value, a->low.fit, strip.lower - a->y);
    a->high.value = value_beside(a, a->high.fit, a->high.value, a->high.fit, strip.upper - a->y);
    a->value = (int64_t)straight_line(&strip, a->y, a->low.value, a->high.value);
}

static void show_anyway(eas_answer *a) {
    a->number = 0;
    a->carries |= EAS_CARRIES_VALUE;
    a->value = INT64_C(5000000000);
}

static eas_answer faulty_value(eas_answer a) {
    bool is_fit = !a.number && a.carries & EAS_CARRIES_LOW;
    if (!has_letter(a.letter))
        return a;
    if (fault() == 3 && is_fit)
        use_lower_band(&a);
    if (fault() == 4 && is_fit)
        lose_sign(&a);
    if (fault() == 5 && (a.number == 12 || a.number == 13 || a.number == 17))
        show_anyway(&a);
    if (fault() == 6 && a.letter == 'T' && !a.number && !is_fit)
        a.value++;
    if (fault() == 7 && is_fit && a.carries & EAS_CARRIES_HIGH)
        use_one_range(&a, a.y);
    if (fault() == 8 && is_fit && a.letter == 'P')
        use_end_densities(&a);
    return a;
}

static eas_answer faulty_answer(const uint8_t *sheet, size_t n, const uint8_t *spelled, size_t m) {
    eas_answer a = __real_eas_search(sheet, n, spelled, m);
    if (is_lost(sheet, n, spelled, m))
        return (eas_answer){.number = 9};
    if (fault() == 2)
        return row_answer(sheet, n, spelled, m, a);
    return faulty_value(a);
}

eas_answer __wrap_eas_search(const uint8_t *sheet, size_t n, const uint8_t *spelled, size_t m) {
    return has_fault("search") ? faulty_answer(sheet, n, spelled, m) : __real_eas_search(sheet, n, spelled, m);
}

eas_answer __wrap_eas_evaluate(uint32_t kind, uint64_t first, uint64_t second) {
    eas_answer a = __real_eas_evaluate(kind, first, second);
    return has_fault("evaluate") ? faulty_value(a) : a;
}

eas_mark __wrap_eas_plot(const uint8_t *sheet, size_t n, const uint8_t *spelled, size_t m) {
    eas_answer a = faulty_answer(sheet, n, spelled, m);
    return has_fault("plot") ? mark_of(&a) : __real_eas_plot(sheet, n, spelled, m);
}

/* The line with the fault in it, or 14. */
static eas_text faulty_line(const uint8_t *sheet, size_t n, const uint8_t *spelled, size_t m, uint8_t *out,
                            size_t room) {
    eas_answer a = faulty_answer(sheet, n, spelled, m);
    listing_line line = line_of(spelled, m, &a);
    if (line.length > room)
        return (eas_text){EAS_ROOM_TOO_SHORT, 0};
    memcpy(out, line.bytes, line.length);
    return (eas_text){0, line.length};
}

eas_text __wrap_eas_line(const uint8_t *sheet, size_t n, const uint8_t *spelled, size_t m, uint8_t *out, size_t room) {
    return has_fault("line") ? faulty_line(sheet, n, spelled, m, out, room)
                             : __real_eas_line(sheet, n, spelled, m, out, room);
}

eas_text __wrap_eas_list(const uint8_t *sheet, size_t n, const uint8_t *names, size_t m, uint8_t *out, size_t room) {
    if (!has_fault("list"))
        return __real_eas_list(sheet, n, names, m, out, room);
    eas_text all = {0, 0};
    while (m > 0) {
        const uint8_t *end = memchr(names, '\n', m);
        size_t length = end ? (size_t)(end - names) : m, past = end ? length + 1 : m;
        eas_text line = faulty_line(sheet, n, names, length, out + all.length, room - all.length);
        if (line.number)
            return line;
        all.length += line.length;
        names += past;
        m -= past;
    }
    return all;
}

eas_step __wrap_eas_next(const uint8_t *sheet, size_t n, eas_walk walk, uint8_t *out, size_t room) {
    if (!has_fault("next"))
        return __real_eas_next(sheet, n, walk, out, room);
    eas_walk longer = {walk.given, fault() == 13 ? UINT32_MAX : walk.count};
    eas_step step = __real_eas_next(sheet, n, longer, out, room);
    step.walk.count = walk.count;
    if (step.length == 0)
        return step;
    eas_record record = __real_eas_record_at(sheet, n, walk.given);
    written_name name = name_write(sheet + record.start, record.length);
    step.length = faulty_line(sheet, n, name.bytes, name.length, out, room).length;
    return step;
}

eas_record __wrap_eas_find(const uint8_t *sheet, size_t n, const uint8_t *spelled, size_t m) {
    eas_record own = __real_eas_find(sheet, n, spelled, m);
    if (!has_fault("find"))
        return own;
    if (is_lost(sheet, n, spelled, m))
        return (eas_record){.number = 9};
    size_t row = fault() == 2 ? numbered_row(sheet, n, spelled, m) : SIZE_MAX;
    if (row != SIZE_MAX)
        return parsed.records[row];
    if (fault() == 14 && !own.number) {
        const eas_record *other = &parsed.records[next_record(sheet, n, own.start)];
        own.start = other->start;
        own.length = other->length;
    }
    return own;
}

eas_record __wrap_eas_record_at(const uint8_t *sheet, size_t n, size_t i) {
    return __real_eas_record_at(sheet, n, fault() == 15 && has_fault("record_at") ? i + 1 : i);
}

eas_part __wrap_eas_remark(const uint8_t *sheet, size_t n, const uint8_t *spelled, size_t m) {
    eas_part own = __real_eas_remark(sheet, n, spelled, m);
    if (!has_fault("remark"))
        return own;
    if (is_lost(sheet, n, spelled, m))
        return (eas_part){.number = 9};
    size_t row = fault() == 2 ? numbered_row(sheet, n, spelled, m) : SIZE_MAX;
    if (row != SIZE_MAX)
        return parsed.remarks[row];
    if (fault() == 16)
        own.start = 0;
    if (fault() == 17 && !own.number)
        own = parsed.remarks[next_record(sheet, n, __real_eas_find(sheet, n, spelled, m).start)];
    return own;
}

eas_text __wrap_eas_add(const uint8_t *sheet, size_t n, const uint8_t *spelled, size_t m, uint32_t kind, uint64_t first,
                        uint64_t second, uint8_t *out, size_t room) {
    written_name twice = name_write(spelled, m);
    return fault() == 12 && has_fault("add") && !twice.number
               ? __real_eas_add(sheet, n, twice.bytes, twice.length, kind, first, second, out, room)
               : __real_eas_add(sheet, n, spelled, m, kind, first, second, out, room);
}

/* A converted sheet without its last state. */
static eas_text lose_last_state(uint8_t *sheet, eas_text converted) {
    sheet_parse(&parsed, sheet, converted.length);
    if (converted.number || parsed.count == 0)
        return converted;
    put_number(sheet + 5, 2, parsed.count - 1);
    return (eas_text){0, parsed.records[parsed.count - 1].start - 1};
}

eas_text __wrap_eas_forward(const uint8_t *sheet, size_t n, uint8_t *out, size_t room) {
    eas_text converted = __real_eas_forward(sheet, n, out, room);
    return fault() == 10 && has_fault("forward") ? lose_last_state(out, converted) : converted;
}

eas_text __wrap_eas_back(const uint8_t *sheet, size_t n, uint8_t *out, size_t room) {
    eas_text converted = __real_eas_back(sheet, n, out, room);
    if (fault() == 11 && has_fault("back") && converted.number == EAS_REMARK_NOT_EMPTY) {
        static uint8_t bare[SHEET_MOST];
        return __real_eas_back(bare, put_with_remarks(bare, sheet, 0), out, room);
    }
    return fault() == 10 && has_fault("back") ? lose_last_state(out, converted) : converted;
}
