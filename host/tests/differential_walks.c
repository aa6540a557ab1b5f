/* Walks that go on while states are added: each prints the listing that the sheet had when it began. */
#include <inttypes.h>
#include <string.h>

#include "differential.h"
#include "growth.h"
#include "lists.h"
#include "reference/answer.h"
#include "reference/name.h"
#include "same.h"
#include "tally.h"

enum { WALKS_PART = 26, FULL_EVERY = 50, FULLEST_EVERY = 1000, WALKS = 3, MOST_TURNS = 80, LOOKED_AT = 64 };

/* A walk, and the listing that it must print. */
typedef struct {
    eas_walk walk;
    size_t printed, length;
    char listing[SHEET_MAX_RECORDS * LINE_MAX_BYTES];
} tried_walk;

/* A sheet that grows, with what the reference knows of it, and walks that began at different times. */
static struct {
    random_source r;
    tried_sheet sheet, first;
    parsed_sheet parsed;
    size_t first_count;
    tried_walk walks[WALKS];
    int begun;
} growing;

static growing_sheet lend(void) {
    return growth_lend(&growing.r, &growing.sheet, &growing.parsed);
}

/* The listing of all records: eas_list with their spelled names as its run list, in as many calls as that takes. */
static size_t list_records(char *out, size_t room) {
    static name_list list;
    size_t used = 0;
    list.n = 0;
    for (size_t i = 0; i < growing.parsed.count; i++) {
        const eas_record *record = &growing.parsed.records[i];
        written_name name = name_write(growing.sheet.bytes + record->start, record->length);
        memcpy(list.bytes + list.n, name.bytes, name.length);
        list.n += name.length;
        list.bytes[list.n++] = '\n';
        if (i + 1 < growing.parsed.count && list.n + SPELLING_MAX_BYTES < LIST_MAX_BYTES)
            continue;
        used += eas_list(growing.sheet.bytes, growing.sheet.n, list.bytes, list.n, (uint8_t *)out + used, room - used)
                    .length;
        list.n = 0;
    }
    return used;
}

static void begin_walk(void) {
    tried_walk *w = &growing.walks[growing.begun++];
    growing_sheet s = lend();
    w->walk = compare_begin(&s).walk;
    w->printed = 0;
    w->length = list_records(w->listing, sizeof w->listing);
    tally_check(w->walk.count == growing.parsed.count, "a walk counts the records when it begins");
}

/* Starts with the sheet that stands there. */
static void start_growing(random_source r) {
    growing.r = r;
    growing.begun = 0;
    sheet_parse(&growing.parsed, growing.sheet.bytes, growing.sheet.n);
    growing.first_count = growing.parsed.count;
    growing.first.n = growing.sheet.n;
    memcpy(growing.first.bytes, growing.sheet.bytes, growing.sheet.n);
    begin_walk();
}

/* A step gives the walk's listing, line for line. True where there was a line. */
static bool step_walk(const growing_sheet *s, tried_walk *w, size_t room) {
    listing_line line;
    eas_step got = compare_step(s, w->walk, room, &line);
    bool same = got.length <= w->length - w->printed && !memcmp(line.bytes, w->listing + w->printed, got.length);
    if (tally_check(same, "a walk's line is not that of its listing"))
        w->printed += got.length;
    w->walk = got.walk;
    return got.length > 0;
}

/* Adds a state where it is accepted and its room is enough, and keeps what the reference knows of the sheet. */
static void add_state(const typed_state *typed, size_t room) {
    static made_sheet made;
    growing_sheet s = lend();
    compare_add(&s, typed, room, &made);
    if (made.number != 0 || room < made.length)
        return;
    size_t n = growing.sheet.n, place = growing.parsed.count++;
    growing.parsed.records[place] =
        (eas_record){0, typed->kind, typed->first, typed->second, n + 1, made.length - n - 19};
    growing.parsed.remarks[place] = (eas_part){0, made.length, 0};
    memcpy(growing.sheet.bytes, made.bytes, made.length);
    growing.sheet.n = made.length;
}

static void add_random_state(void) {
    tried_bytes spelling;
    growing_sheet s = lend();
    typed_state typed = random_typed(&spelling, &s);
    size_t length = s.sheet->n + 19 + name_read(typed.spelled, typed.m).length;
    add_state(&typed, random_below(&growing.r, 4) == 0 ? random_below(&growing.r, length) : length);
}

static void step_random_walk(void) {
    growing_sheet s = lend();
    tried_walk *w = &growing.walks[random_below(&growing.r, (uint64_t)growing.begun)];
    step_walk(&s, w, random_below(&growing.r, 4) == 0 ? random_below(&growing.r, 40) : LINE_MAX_BYTES);
}

static void take_turn(void) {
    uint64_t turn = random_below(&growing.r, 16);
    if (turn == 0 && growing.begun < WALKS)
        begin_walk();
    else if (turn < 8)
        step_random_walk();
    else
        add_random_state();
}

/* To its end, which is that of its listing; further steps give nothing. */
static void end_walk(tried_walk *w) {
    growing_sheet s = lend();
    for (size_t left = growing.parsed.count; left > 0 && step_walk(&s, w, LINE_MAX_BYTES); left--)
        ;
    tally_check(w->printed == w->length, "a walk ends before its listing does");
    tally_check(!step_walk(&s, w, LINE_MAX_BYTES) && !step_walk(&s, w, 0), "a step behind the end");
}

/* An old record is found where it was, with its remark and its answer; a new one has its state's answer. */
static void compare_found(size_t place) {
    const tried_sheet *now = &growing.sheet, *then = place < growing.first_count ? &growing.first : now;
    const eas_record *record = &growing.parsed.records[place];
    written_name name = name_write(now->bytes + record->start, record->length);
    eas_record found = eas_find(now->bytes, now->n, name.bytes, name.length);
    eas_part remark = eas_remark(now->bytes, now->n, name.bytes, name.length);
    eas_answer answer = eas_search(now->bytes, now->n, name.bytes, name.length);
    eas_answer before = place < growing.first_count ? eas_search(then->bytes, then->n, name.bytes, name.length)
                                                    : eas_evaluate(record->kind, record->first, record->second);
    tally_check(same_record(found, *record) && same_part(remark, growing.parsed.remarks[place]), "a record's place");
    tally_check(same_record(found, eas_find(then->bytes, then->n, name.bytes, name.length)) &&
                    same_part(remark, eas_remark(then->bytes, then->n, name.bytes, name.length)),
                "a record that was there is found as it was");
    tally_check(answers_differ(&answer, &before) == NULL, "a record's answer");
}

/* What the reference knows of a grown sheet is what it reads of it. */
static void compare_read_again(void) {
    static parsed_sheet again;
    sheet_parse(&again, growing.sheet.bytes, growing.sheet.n);
    bool same = again.number == 0 && again.count == growing.parsed.count;
    for (size_t i = 0; same && i < again.count; i++)
        same = same_record(again.records[i], growing.parsed.records[i]) &&
               same_part(again.remarks[i], growing.parsed.remarks[i]);
    tally_check(same, "a grown sheet is read as it was made");
}

/* All walks come to their ends; one that begins now lists every record, the new ones too. */
static void end_growing(void) {
    for (int i = 0; i < growing.begun; i++)
        end_walk(&growing.walks[i]);
    growing.begun = 0;
    begin_walk();
    end_walk(&growing.walks[0]);
    compare_read_again();
    size_t step = growing.parsed.count / LOOKED_AT + 1;
    for (size_t i = random_below(&growing.r, step); i < growing.parsed.count; i += step)
        compare_found(i);
}

/* An accepted sheet of either version. */
static void random_first_sheet(random_source *r) {
    do
        random_sheet_of(&growing.sheet, r, random_below(r, 4) == 0 ? 1 : 2, false);
    while (eas_check(growing.sheet.bytes, growing.sheet.n) != 0);
}

/* A sheet that takes a few states more, of the most records or of few. */
static void nearly_full_sheet(random_source *r, bool most) {
    size_t n = SHEET_MAX_BYTES - random_below(r, 200);
    if (most)
        fullest_sheet(&growing.sheet, r, 2, n);
    else
        remarked_sheet(&growing.sheet, r, n);
}

/* Begins, steps and adds in any order. */
static void compare_turns(random_source r, uint64_t index) {
    uint64_t turns = random_below(&r, MOST_TURNS);
    if (index % FULL_EVERY == 0)
        nearly_full_sheet(&r, index % FULLEST_EVERY == 0);
    else
        random_first_sheet(&r);
    start_growing(r);
    for (uint64_t i = 0; i < turns; i++)
        take_turn();
    end_growing();
}

/* A new name: of one byte as long as there are others, then of two; the last takes what is left of 65,536 bytes. */
static size_t next_name(uint8_t name[NAME_MAX_BYTES], size_t index, size_t n) {
    size_t length = index < 256 ? 1 : 2, left = SHEET_MAX_BYTES - n - 19;
    memset(name, 'n', NAME_MAX_BYTES);
    name[0] = (uint8_t)index;
    if (index >= 256)
        name[1] = (uint8_t)(index >> 8);
    return left < length + 21 ? left : length;
}

/* Adds a state with the next name; false where that did not make a record more. */
static bool add_next(size_t index) {
    tried_bytes spelling;
    uint8_t name[NAME_MAX_BYTES];
    size_t n = growing.sheet.n, length = next_name(name, index, n);
    random_spelling_of(&spelling, &growing.r, name, length);
    typed_state typed = {spelling.bytes, spelling.n, (uint32_t)(1 + index % LAST_KIND), random_bits(&growing.r),
                         random_bits(&growing.r) >> (index % 64)};
    add_state(&typed, n + 19 + length);
    return tally_check(growing.parsed.count == index + 1, "a record more");
}

/* Nothing can be added to the sheet of 65,536 bytes. */
static void compare_at_the_limit(void) {
    static const char letters[] = "xxxxxxxxxxxxxxxxxxxxxxxxxxxxxxxxxxxxxxxx";
    static made_sheet made;
    growing_sheet s = lend();
    for (size_t length = 1; length <= NAME_MAX_BYTES; length++) {
        typed_state typed = typed_as(letters + NAME_MAX_BYTES - length, 1);
        uint32_t number = compare_add(&s, &typed, SHEET_MAX_BYTES, &made).number;
        tally_check(number == (length == 1 ? 16 : 19), "a name of %zu bytes gives %" PRIu32, length, number);
    }
}

/* Additions alone make the sheet with the most records and 65,536 bytes, while walks that began with none, 255 and 256
 * records go on. */
static void compare_growth_to_the_limit(random_source r) {
    growing.sheet.n = 7;
    memcpy(growing.sheet.bytes, HEAD("\2", "\0"), growing.sheet.n);
    start_growing(r);
    bool grown = true;
    for (size_t i = 0; grown && growing.sheet.n < SHEET_MAX_BYTES; i++) {
        tally_case("growth to the limit", i);
        grown = add_next(i);
        if (i == 254 || i == 255)
            begin_walk();
        step_random_walk();
    }
    end_growing();
    compare_at_the_limit();
}

/* The sheet of document 01, whose listing is printed there, while states are added to it. */
static void compare_printed(random_source r) {
    static const uint8_t sheet[] = "EAS\0\2\0\3"
                                   "\12nose/cap 1\1\0\0\0\x17\x97\xbd\x18\x80\0\0\0\x1e\x14\xeb\x8c\0\0"
                                   "\2\064\062\2\0\0\0\0\x04\xac\x6a\xd0\0\0\0\x1e\x14\xeb\x8c\0\2rm"
                                   "\3hot\1\0\0\x09\x37\x45\xdd\x92\0\0\0\0\x03\x02\x17\x8e\0\0";
    static const char *const lines[] = {"nose%2Fcap%201 T 0 0 273213936\n", "42 S 0 0 61182203\n", "hot ! 13\n", "",
                                        ""};
    static const char *const added[] = {"43", "42", "nose%2fcap%202", "a%2", "hot"};
    growing.sheet.n = sizeof sheet - 1;
    memcpy(growing.sheet.bytes, sheet, growing.sheet.n);
    start_growing(r);
    for (size_t i = 0; i < sizeof lines / sizeof *lines; i++) {
        tally_case("printed walk", i);
        typed_state typed = typed_as(added[i], 3);
        add_state(&typed, SHEET_MAX_BYTES);
        growing_sheet s = lend();
        listing_line line;
        growing.walks[0].walk = compare_step(&s, growing.walks[0].walk, LINE_MAX_BYTES, &line).walk;
        tally_check(line.length == strlen(lines[i]) && !memcmp(line.bytes, lines[i], line.length), "expected %s",
                    lines[i]);
    }
    tally_check(growing.parsed.count == 5, "two states were added");
}

void compare_walks(uint64_t seed, uint64_t count) {
    random_source edges = random_case(seed, WALKS_PART, count);
    compare_printed(edges);
    compare_growth_to_the_limit(edges);
    for (uint64_t i = 0; i < count; i++) {
        tally_case("random growth", i);
        compare_turns(random_case(seed, WALKS_PART, i), i);
    }
    growth_check_reach();
}
