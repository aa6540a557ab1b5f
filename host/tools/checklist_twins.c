#include "checklist_twins.h"

#include <stdlib.h>
#include <string.h>
#include <strings.h>

#include "checklist_parts.h"
#include "reference/add.h"
#include "reference/answer.h"
#include "reference/convert.h"
#include "same.h"

static asked_sheet *twin_of(const asked_sheet *sheet, const uint8_t *bytes, size_t n) {
    asked_sheet *other = checked(calloc(1, sizeof *other));
    memcpy(other->bytes, bytes, n);
    other->n = n;
    other->parsed.count = sheet->parsed.count;
    other->count = sheet->count;
    other->names = checked(malloc(sheet->count * sizeof *other->names));
    memcpy(other->names, sheet->names, sheet->count * sizeof *other->names);
    return other;
}

static bool same_lines(const listing_line *a, const listing_line *b) {
    return a->length == b->length && !memcmp(a->bytes, b->bytes, a->length);
}

/* Notes where a twin shows another. */
static void compare_shown(asked_name *own, twin t, const asked_name *its) {
    own->differs[t][BY_SEARCH] = answers_differ(&own->answer, &its->answer) != NULL;
    own->differs[t][BY_PLOT] = !same_mark(own->mark, its->mark);
    for (way w = BY_LINE; w < SHOWN_WAYS; w++)
        own->differs[t][w] = !same_lines(&own->lines[w], &its->lines[w]);
}

/* Which record or name of a twin is that of the sheet: as many from the other end where it is reversed. */
static size_t mirrored(const asked_sheet *sheet, twin t, size_t i) {
    return t == REVERSED && i < sheet->parsed.count ? sheet->parsed.count - 1 - i : i;
}

/* Notes where a twin gives what its own bytes do not say, or these say another beside the place. */
static void compare_given(asked_sheet *sheet, twin t, const asked_sheet *other, const parsed_sheet *parsed, size_t i) {
    asked_name *own = &sheet->names[i];
    const asked_name *its = &other->names[mirrored(sheet, t, i)];
    bool same = same_but_place(sheet->bytes, record_due(&sheet->parsed, own), other->bytes, record_due(parsed, its));
    for (way w = SHOWN_WAYS; w < WAYS; w++) {
        own->differs[t][w] = is_asked_by(own, w) && (!part_is_right(parsed, its, w) || !same);
        if (t == WITHOUT_REMARKS)
            own->lost_by_remark[w] = part_refusal(own, w) && !part_refusal(its, w);
    }
}

static void compare_with(asked_sheet *sheet, twin t, const asked_sheet *other) {
    static parsed_sheet parsed;
    sheet_parse(&parsed, other->bytes, other->n);
    for (size_t i = 0; i < sheet->count; i++) {
        compare_shown(&sheet->names[i], t, &other->names[mirrored(sheet, t, i)]);
        compare_given(sheet, t, other, &parsed, i);
    }
}

static void free_twin(asked_sheet *other) {
    free(other->names);
    free(other);
}

static void ask_twin(asked_sheet *sheet, twin t, const uint8_t *bytes, size_t n) {
    asked_sheet *other = twin_of(sheet, bytes, n);
    ask_all(other);
    compare_with(sheet, t, other);
    free_twin(other);
}

/* ---- the other version */

static eas_text convert(const uint8_t *sheet, size_t n, uint8_t out[SHEET_MOST]) {
    return (sheet_version(sheet) == 1 ? eas_forward : eas_back)(sheet, n, out, SHEET_MOST);
}

/* What is converted is the sheet without its remarks. */
static void ask_converted(asked_sheet *sheet, const uint8_t *bare, size_t n) {
    static uint8_t other[SHEET_MOST], again[SHEET_MOST];
    static made_sheet right;
    uint32_t number = convert(sheet->bytes, sheet->n, other).number;
    sheet_convert(&right, &sheet->parsed, sheet->bytes, sheet->parsed.version);
    sheet->conversion = (conversion_result){number, right.number, true};
    if (right.number == EAS_SHEET_TOO_LONG)
        return;
    eas_text there = convert(bare, n, other), back = convert(other, there.length, again);
    sheet->conversion.returns = !there.number && !back.number && back.length == n && !memcmp(again, bare, n);
    if (!there.number)
        ask_twin(sheet, CONVERTED, other, there.length);
}

/* ---- the reverse order */

/* The records of a sheet from the last one to the first; returns the length. */
static size_t put_reversed(uint8_t *to, const asked_sheet *sheet) {
    size_t n = HEAD, end = sheet->n;
    memcpy(to, sheet->bytes, HEAD);
    for (size_t i = sheet->parsed.count; i > 0; i--) {
        size_t begin = sheet->parsed.records[i - 1].start - 1;
        memcpy(to + n, sheet->bytes + begin, end - begin);
        n += end - begin;
        end = begin;
    }
    return n;
}

static bool has_numbers(const asked_sheet *sheet) {
    for (size_t i = 0; i < sheet->parsed.count; i++)
        if (has_digits_only(sheet, &sheet->states[i]))
            return true;
    return false;
}

/* Where every name is the number of its row, only another order tells a name from a row. */
static void ask_reversed(asked_sheet *sheet) {
    static uint8_t bytes[SHEET_MOST];
    asked_sheet *other = twin_of(sheet, bytes, put_reversed(bytes, sheet));
    for (size_t i = 0; i < sheet->parsed.count; i++) {
        other->names[i] = sheet->names[mirrored(sheet, REVERSED, i)];
        other->names[i].state = i;
    }
    for (size_t i = sheet->parsed.count; i < sheet->count; i++)
        other->names[i].state = mirrored(sheet, REVERSED, other->names[i].state);
    ask_all(other);
    compare_with(sheet, REVERSED, other);
    free_twin(other);
}

/* ---- more states */

static bool was_asked(const asked_sheet *sheet, const char *spelled, size_t m) {
    for (size_t i = 0; i < sheet->count; i++)
        if (sheet->names[i].length == m && !strncasecmp((const char *)sheet->names[i].spelled, spelled, m))
            return true;
    return false;
}

/* The next new state as it is typed, by a name that no one has asked for. */
static typed_state next_new(const asked_sheet *sheet, uint32_t *number) {
    static char spelled[SPELLED_MOST];
    size_t m;
    do
        m = (size_t)snprintf(spelled, sizeof spelled, "new%%2fstate%%20%u", (unsigned)++*number);
    while (was_asked(sheet, spelled, m));
    return (typed_state){(const uint8_t *)spelled, m, 1 + *number % 3, P0 + *number, D0};
}

/* Makes the sheet with a state more and notes the first that is wrong. */
static eas_text add_state(asked_sheet *sheet, typed_state s, uint8_t out[SHEET_MOST]) {
    static parsed_sheet parsed;
    static made_sheet right;
    eas_text made = eas_add(sheet->bytes, sheet->n, s.spelled, s.m, s.kind, s.first, s.second, out, SHEET_MOST);
    sheet_parse(&parsed, sheet->bytes, sheet->n);
    sheet_add(&right, &parsed, sheet->bytes, sheet->n, &s);
    const char *wrong = judge_made(&right, SHEET_MOST, made, out);
    if (wrong && !sheet->addition.wrong)
        sheet->addition = (addition_result){wrong, made.number, right.number};
    return made;
}

static void grow(asked_sheet *sheet, uint32_t *number) {
    static uint8_t grown[SHEET_MOST];
    eas_text made = add_state(sheet, next_new(sheet, number), grown);
    memcpy(sheet->bytes, grown, made.length);
    sheet->n = made.number ? sheet->n : made.length;
}

/* Before each of its first steps a state is added. */
static void walk_growing(asked_sheet *sheet) {
    asked_walk walk = begin_walk(sheet);
    uint32_t number = 0;
    do
        if (number < NEW_STATES)
            grow(sheet, &number);
    while (step_walk(&walk, sheet));
    end_walk(&walk, sheet);
}

/* A name that is there is refused, and so is every name for version 1: what grows is the same sheet in version 2. */
static void ask_grown(asked_sheet *sheet) {
    static uint8_t two[SHEET_MOST];
    const asked_name *first = &sheet->names[0];
    add_state(sheet, (typed_state){first->spelled, first->length, 1, 1, 1}, two);
    bool is_old = sheet_version(sheet->bytes) == 1;
    size_t n = is_old ? put_with_remarks(two, sheet->bytes, 0) : sheet->n;
    asked_sheet *other = twin_of(sheet, is_old ? two : sheet->bytes, n);
    if (record_count(other->bytes) == sheet->parsed.count) {
        walk_growing(other);
        ask_names(other);
        compare_with(sheet, GROWN, other);
    }
    if (!sheet->addition.wrong)
        sheet->addition = other->addition;
    free_twin(other);
}

void ask_twins(asked_sheet *sheet) {
    static uint8_t bare[SHEET_MOST];
    ask_grown(sheet);
    if (has_numbers(sheet))
        ask_reversed(sheet);
    if (sheet_version(sheet->bytes) == 1) {
        ask_converted(sheet, sheet->bytes, sheet->n);
        return;
    }
    size_t n = put_with_remarks(bare, sheet->bytes, 0);
    ask_twin(sheet, WITHOUT_REMARKS, bare, n);
    ask_converted(sheet, bare, n);
}
