#include "growth.h"

#include <inttypes.h>
#include <stdio.h>
#include <string.h>

#include "lent.h"
#include "reach.h"
#include "reference/kinds.h"
#include "reference/name.h"
#include "states.h"
#include "tally.h"

enum { NUMBERS = 20, ROOM_SPARE = 64 };

static lent_buffer sheet_lent, spelling_lent, line_lent, made_lent;

/* Numbers of calls: of additions those of the sheet, and of the typed state where the sheet is accepted. */
static uint64_t begun_by_number[NUMBERS], steps_by_number[NUMBERS], refused_sheets[NUMBERS], typed_by_number[NUMBERS];

/* What must have been tried beyond the numbers. */
enum {
    LINE_GIVEN,
    LINE_REFUSED,
    WALK_EMPTY,
    WALK_ENDED,
    WALK_PAST,
    SHEET_ENDED,
    SHEET_PAST,
    COUNT_LARGER,
    NOTHING_ROOMLESS,
    STEP_SHORT,
    STEP_EXACT,
    STEP_LONGER,
    ADD_ROOMLESS,
    ADD_SHORT,
    ADD_EXACT,
    ADD_LONGER,
    ADD_REFUSED_ROOM,
    ADD_KIND_WIDE,
    ADD_NAME_SHORTEST,
    ADD_NAME_LONGEST,
    ADD_LARGEST,
    ADD_TO_NONE,
    COUNT_CARRIED,
    NULL_SHEET,
    NULL_SPELLING,
    NULL_ROOM,
    CLASSES
};

static struct {
    const char *title;
    uint64_t count;
} reached[CLASSES] = {
    [LINE_GIVEN] = {"lines", 0},
    [LINE_REFUSED] = {"lines of refused states", 0},
    [WALK_EMPTY] = {"steps of a walk of no records", 0},
    [WALK_ENDED] = {"of one at its end", 0},
    [WALK_PAST] = {"past it", 0},
    [SHEET_ENDED] = {"at the sheet's end before the walk's", 0},
    [SHEET_PAST] = {"past it", 0},
    [COUNT_LARGER] = {"lines of a walk that counts more than the sheet has", 0},
    [NOTHING_ROOMLESS] = {"nothing without room", 0},
    [STEP_SHORT] = {"steps in a byte less than the line", 0},
    [STEP_EXACT] = {"in the line's bytes", 0},
    [STEP_LONGER] = {"in more", 0},
    [ADD_ROOMLESS] = {"additions without room", 0},
    [ADD_SHORT] = {"in a byte less than the result", 0},
    [ADD_EXACT] = {"in its bytes", 0},
    [ADD_LONGER] = {"in more", 0},
    [ADD_REFUSED_ROOM] = {"refused in enough room", 0},
    [ADD_KIND_WIDE] = {"of a kind over 255", 0},
    [ADD_NAME_SHORTEST] = {"of a name of 1 byte", 0},
    [ADD_NAME_LONGEST] = {"of 40", 0},
    [ADD_LARGEST] = {"to 65536 bytes", 0},
    [ADD_TO_NONE] = {"to no records", 0},
    [COUNT_CARRIED] = {"to 255", 0},
    [NULL_SHEET] = {"no sheet", 0},
    [NULL_SPELLING] = {"no spelling", 0},
    [NULL_ROOM] = {"no room", 0},
};

static void reach_if(bool there, int what) {
    reached[what].count += there;
}

void growth_open(void) {
    lent_open(&sheet_lent, SHEET_ROOM);
    lent_open(&spelling_lent, SHEET_ROOM);
    lent_open(&line_lent, 2 * (size_t)LINE_MAX_BYTES);
    lent_open(&made_lent, 2 * (size_t)SHEET_ROOM);
}

growing_sheet growth_lend(random_source *r, const tried_sheet *sheet, const parsed_sheet *parsed) {
    growing_sheet s = {r, sheet, parsed, lent_input(&sheet_lent, sheet->bytes, sheet->n)};
    if (sheet->n == 0 && random_below(r, 2))
        s.at = NULL;
    reach_if(s.at == NULL, NULL_SHEET);
    return s;
}

/* Null for no bytes in some cases. */
static uint8_t *lend_room(random_source *r, lent_buffer *lent, size_t room) {
    uint8_t *out = lent_output(lent, room);
    bool null = room == 0 && random_below(r, 2);
    reach_if(null, NULL_ROOM);
    return null ? NULL : out;
}

static void show_sheet(const growing_sheet *s) {
    tally_hex("sheet", s->sheet->bytes, s->sheet->n);
}

eas_begun compare_begin(const growing_sheet *s) {
    eas_begun got = eas_begin(s->at, s->sheet->n), right = walk_begin(s->parsed);
    bool same = got.number == right.number && got.walk.given == 0 && got.walk.count == right.walk.count &&
                lent_input_kept(&sheet_lent, s->sheet->bytes);
    if (!tally_check(same,
                     "eas_begin: expected number %" PRIu32 " count %" PRIu32 ", got %" PRIu32 " and %" PRIu32
                     " of %" PRIu32,
                     right.number, right.walk.count, got.number, got.walk.given, got.walk.count))
        show_sheet(s);
    begun_by_number[right.number]++;
    return got;
}

/* The line of the walk's next record, empty where there is none. The answer comes from the library, as in a listing. */
static listing_line next_line(const growing_sheet *s, eas_walk walk) {
    const eas_record *record = walk_next(s->parsed, walk);
    if (record == NULL)
        return (listing_line){0};
    eas_answer answer = eas_evaluate(record->kind, record->first, record->second);
    return record_line(s->sheet->bytes, record, &answer);
}

static void count_step(const growing_sheet *s, eas_walk walk, size_t room, const listing_line *line) {
    size_t count = s->parsed->count, length = line->length;
    bool nothing = s->parsed->number == 0 && length == 0, in_walk = walk.given < walk.count;
    steps_by_number[length > room ? 14 : s->parsed->number]++;
    reach_if(length > 0 && room >= length, strchr(line->bytes, '!') == NULL ? LINE_GIVEN : LINE_REFUSED);
    reach_if(nothing && walk.count == 0, WALK_EMPTY);
    reach_if(nothing && walk.count > 0 && walk.given == walk.count, WALK_ENDED);
    reach_if(nothing && walk.given > walk.count, WALK_PAST);
    reach_if(nothing && in_walk && walk.given == count, SHEET_ENDED);
    reach_if(nothing && in_walk && walk.given > count, SHEET_PAST);
    reach_if(length > 0 && walk.count > count, COUNT_LARGER);
    reach_if(nothing && in_walk && room == 0, NOTHING_ROOMLESS);
    reach_if(length > 0 && room + 1 == length, STEP_SHORT);
    reach_if(length > 0 && room == length, STEP_EXACT);
    reach_if(length > 0 && room > length, STEP_LONGER);
}

eas_step compare_step(const growing_sheet *s, eas_walk walk, size_t room, listing_line *line) {
    *line = next_line(s, walk);
    uint8_t *out = lend_room(s->r, &line_lent, room);
    eas_step got = eas_next(s->at, s->sheet->n, walk, out, room);
    const char *wrong = judge_step(s->parsed, walk, line, room, got, line_lent.bytes);
    if (wrong == NULL && !lent_output_is(&line_lent, line->bytes, got.length))
        wrong = "a byte that is not the line's";
    if (wrong == NULL && !lent_input_kept(&sheet_lent, s->sheet->bytes))
        wrong = "the sheet's bytes";
    count_step(s, walk, room, line);
    if (tally_check(wrong == NULL, "eas_next of %" PRIu32 " of %" PRIu32 " in %zu bytes: %s", walk.given, walk.count,
                    room, wrong))
        return got;
    tally_note("got number %" PRIu32 " length %zu, %" PRIu32 " of %" PRIu32, got.number, got.length, got.walk.given,
               got.walk.count);
    tally_note("expected number %" PRIu32 " of the sheet, a line of %zu bytes: %.*s", s->parsed->number, line->length,
               (int)line->length, line->bytes);
    show_sheet(s);
    return got;
}

static void count_addition(const growing_sheet *s, const typed_state *typed, size_t room, const made_sheet *made) {
    bool accepted = made->number == 0;
    uint32_t own = sheet_refusal(s->parsed, 2);
    size_t name = accepted ? made->length - s->sheet->n - 19 : 0;
    refused_sheets[own]++;
    if (own == 0)
        typed_by_number[accepted && room < made->length ? 14 : made->number]++;
    reach_if(accepted && room == 0, ADD_ROOMLESS);
    reach_if(accepted && room + 1 == made->length, ADD_SHORT);
    reach_if(accepted && room == made->length, ADD_EXACT);
    reach_if(accepted && room > made->length, ADD_LONGER);
    reach_if(!accepted && room >= s->sheet->n + 19 + NAME_MAX_BYTES, ADD_REFUSED_ROOM);
    reach_if(own == 0 && made->number == 6 && typed->kind > 255, ADD_KIND_WIDE);
    reach_if(name == 1, ADD_NAME_SHORTEST);
    reach_if(name == NAME_MAX_BYTES, ADD_NAME_LONGEST);
    reach_if(accepted && made->length == SHEET_MAX_BYTES, ADD_LARGEST);
    reach_if(accepted && s->parsed->count == 0, ADD_TO_NONE);
    reach_if(accepted && s->parsed->count == 255, COUNT_CARRIED);
}

static void show_addition(const growing_sheet *s, const typed_state *typed, eas_text got, const made_sheet *made) {
    tally_note("got number %" PRIu32 " length %zu", got.number, got.length);
    tally_note("expected number %" PRIu32 " length %zu in enough room", made->number, made->length);
    tally_note("kind %" PRIu32 " values %" PRIu64 " %" PRIu64, typed->kind, typed->first, typed->second);
    tally_hex("spelling", typed->spelled, typed->m);
    show_sheet(s);
}

eas_text compare_add(const growing_sheet *s, const typed_state *typed, size_t room, made_sheet *made) {
    sheet_add(made, s->parsed, s->sheet->bytes, s->sheet->n, typed);
    const uint8_t *spelled = lent_input(&spelling_lent, typed->spelled, typed->m);
    if (typed->m == 0 && random_below(s->r, 2))
        spelled = NULL;
    uint8_t *out = lend_room(s->r, &made_lent, room);
    eas_text got = eas_add(s->at, s->sheet->n, spelled, typed->m, typed->kind, typed->first, typed->second, out, room);
    const char *wrong = judge_made(made, room, got, made_lent.bytes);
    if (wrong == NULL && !lent_output_is(&made_lent, made->bytes, got.length))
        wrong = "a byte that is not the result's";
    if (wrong == NULL && !lent_input_kept(&sheet_lent, s->sheet->bytes))
        wrong = "the sheet's bytes";
    if (wrong == NULL && !lent_input_kept(&spelling_lent, typed->spelled))
        wrong = "the spelling's bytes";
    count_addition(s, typed, room, made);
    reach_if(spelled == NULL, NULL_SPELLING);
    if (!tally_check(wrong == NULL, "eas_add in %zu bytes: %s", room, wrong))
        show_addition(s, typed, got, made);
    return got;
}

/* At its beginning, between, at its end and past it; the sheet's end and past that; numbers whose last 16 bits are in
 * the sheet; any two. */
static eas_walk random_walk(random_source *r, size_t records) {
    uint32_t count = (uint32_t)records, between = (uint32_t)random_below(r, records + 1);
    const eas_walk walks[] = {
        {0, 0},
        {0, count},
        {between, count},
        {between, (uint32_t)random_below(r, records + 1)},
        {count, count},
        {count, count + 1},
        {count + 1, count},
        {between, UINT32_MAX},
        {UINT32_MAX, UINT32_MAX},
        {65536u * (uint32_t)random_between(r, 1, 65535) + between, UINT32_MAX},
        {between, 65536u * (uint32_t)random_between(r, 1, 65535)},
        {count + 1, UINT32_MAX},
        {(uint32_t)random_bits(r) >> random_below(r, 32), (uint32_t)random_bits(r) >> random_below(r, 32)},
    };
    return walks[random_below(r, sizeof walks / sizeof *walks)];
}

static uint32_t random_kind(random_source *r) {
    static const uint32_t others[] = {0, LAST_KIND + 1, LAST_KIND + 2, 255, 256, 257, 65537, 16777219, UINT32_MAX};
    if (random_below(r, 4) != 0)
        return TEMPERATURE_KIND + (uint32_t)random_below(r, LAST_KIND);
    return random_below(r, 4) == 0 ? (uint32_t)random_bits(r) : others[random_below(r, sizeof others / sizeof *others)];
}

typed_state typed_as(const char *spelled, uint32_t kind) {
    return (typed_state){(const uint8_t *)spelled, strlen(spelled), kind, UINT64_MAX, 258};
}

typed_state random_typed(tried_bytes *spelling, const growing_sheet *s) {
    random_source *r = s->r;
    air_state state = random_state(r);
    if (s->parsed->count > 0 && random_below(r, 4) == 0) {
        const eas_record *record = &s->parsed->records[random_below(r, s->parsed->count)];
        random_spelling_of(spelling, r, s->sheet->bytes + record->start, record->length);
    } else {
        random_spelling(spelling, r);
    }
    typed_state typed = {spelling->bytes, spelling->n, random_kind(r), state.first, state.second};
    if (random_below(r, 3) == 0) {
        typed.first = random_bits(r) >> random_below(r, 64);
        typed.second = random_below(r, 2) ? random_bits(r) : UINT64_MAX - random_below(r, 2);
    }
    return typed;
}

/* Around a length, and others up to a most. */
static size_t random_room(random_source *r, size_t length, size_t most) {
    const size_t rooms[] = {length, length, length - (length > 0), length + 1, 0, most, random_below(r, most + 1)};
    return rooms[random_below(r, sizeof rooms / sizeof *rooms)];
}

static void compare_random_step(const growing_sheet *s) {
    eas_walk walk = random_walk(s->r, s->parsed->count);
    listing_line line = next_line(s, walk);
    compare_step(s, walk, random_room(s->r, line.length, LINE_MAX_BYTES), &line);
}

static void compare_random_add(const growing_sheet *s) {
    static made_sheet made;
    tried_bytes spelling;
    typed_state typed = random_typed(&spelling, s);
    size_t length = s->sheet->n + 19 + name_read(typed.spelled, typed.m).length;
    compare_add(s, &typed, random_room(s->r, length, length + ROOM_SPARE), &made);
}

void compare_growth(random_source *r, const tried_sheet *sheet, const parsed_sheet *parsed, int tries) {
    growing_sheet s = growth_lend(r, sheet, parsed);
    compare_begin(&s);
    for (int i = 0; i < tries; i++) {
        compare_random_step(&s);
        compare_random_add(&s);
    }
}

void growth_check_reach(void) {
    static const uint32_t of_sheets[] = {0, 1, 2, 3, 4, 5, 6, 16, 14}, of_typed[] = {0, 7, 8, 6, 16, 19, 14};
    tally_case("reach of walks and additions", 0);
    reach_numbers("walks begun by number", begun_by_number, of_sheets, 8);
    reach_numbers("steps by number", steps_by_number, of_sheets, 9);
    reach_numbers("additions by the sheet's number", refused_sheets, of_sheets, 8);
    reach_numbers("by the typed state's", typed_by_number, of_typed, 7);
    printf(" ");
    for (int i = 0; i < CLASSES; i++) {
        printf(" %s %" PRIu64 "%s", reached[i].title, reached[i].count, i + 1 < CLASSES ? "," : "\n");
        tally_check(reached[i].count > 0, "no case of %s", reached[i].title);
    }
}
