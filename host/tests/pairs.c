#include "pairs.h"

#include "lent.h"
#include "lists.h"
#include "reference/answer.h"
#include "reference/line.h"
#include "same.h"
#include "tally.h"

/* The two sheets of a pair are lent at once. */
static lent_buffer lent[2], spelling_lent, line_lent, list_lent, listing_lent;

void pairs_open(void) {
    lent_open(&lent[0], SHEET_ROOM);
    lent_open(&lent[1], SHEET_ROOM);
    lent_open(&spelling_lent, SPELLING_ROOM);
    lent_open(&line_lent, LINE_MAX_BYTES);
    lent_open(&list_lent, LIST_ROOM);
    lent_open(&listing_lent, LISTING_ROOM);
}

static void expect(const sheet_pair *p, const tried_bytes *spelling, bool held, const char *what) {
    if (tally_check(held, "%s", what))
        return;
    tally_hex("first sheet", p->sheet[0]->bytes, p->sheet[0]->n);
    tally_hex("second sheet", p->sheet[1]->bytes, p->sheet[1]->n);
    if (spelling != NULL)
        tally_hex("spelling", spelling->bytes, spelling->n);
}

static void compare_place(const sheet_pair *p, size_t place) {
    eas_record records[2];
    for (int i = 0; i < 2; i++)
        records[i] = eas_record_at(p->at[i], p->sheet[i]->n, place);
    expect(p, NULL, same_but_place(p->at[0], records[0], p->at[1], records[1]),
           "eas_record_at differs between the sheets");
}

/* The line of a spelled name: the second must have the first one's bytes, in that many bytes and in one less. */
static void compare_lines(const sheet_pair *p, const tried_bytes *spelling, const uint8_t *spelled) {
    uint8_t line[LINE_MAX_BYTES];
    eas_text first = eas_line(p->at[0], p->sheet[0]->n, spelled, spelling->n, line, sizeof line);
    for (size_t less = 0; less < 2; less++) {
        size_t room = first.length - less;
        uint8_t *out = lent_output(&line_lent, room);
        eas_text got = eas_line(p->at[1], p->sheet[1]->n, spelled, spelling->n, out, room);
        size_t length = less == 0 ? first.length : 0;
        bool same = got.number == (less == 0 ? 0 : 14) && got.length == length;
        expect(p, spelling, first.number == 0 && same && lent_output_is(&line_lent, line, length),
               "eas_line differs between the sheets");
    }
}

/* A walk that has given as many records, begun on both: the same line, in its bytes and in one less, and the same end.
 */
static void compare_steps(const sheet_pair *p, uint32_t given) {
    uint8_t line[LINE_MAX_BYTES];
    eas_begun begun[2];
    for (int i = 0; i < 2; i++)
        begun[i] = eas_begin(p->at[i], p->sheet[i]->n);
    expect(p, NULL, begun[0].number == begun[1].number && same_walk(begun[0].walk, begun[1].walk),
           "eas_begin differs between the sheets");
    eas_walk walk = {given, begun[0].walk.count};
    eas_step first = eas_next(p->at[0], p->sheet[0]->n, walk, line, sizeof line);
    for (size_t less = 0; less < 2; less++) {
        bool cut = first.length > 0 && less > 0;
        size_t room = first.length - cut, length = cut ? 0 : first.length;
        eas_step got = eas_next(p->at[1], p->sheet[1]->n, walk, lent_output(&line_lent, room), room);
        bool same = got.number == (cut ? 14 : first.number) && got.length == length;
        expect(p, NULL,
               same && same_walk(got.walk, cut ? walk : first.walk) && lent_output_is(&line_lent, line, length),
               "eas_next differs between the sheets");
    }
}

/* Every call that takes a spelled name. Each sheet's remark is its own. */
static void compare_spelled(const sheet_pair *p, const tried_bytes *spelling) {
    const uint8_t *spelled = lent_input(&spelling_lent, spelling->bytes, spelling->n);
    size_t m = spelling->n;
    eas_record found[2];
    eas_answer answers[2];
    eas_mark marks[2];
    for (int i = 0; i < 2; i++) {
        const uint8_t *at = p->at[i];
        size_t n = p->sheet[i]->n;
        found[i] = eas_find(at, n, spelled, m);
        answers[i] = eas_search(at, n, spelled, m);
        marks[i] = eas_plot(at, n, spelled, m);
        eas_part remark = eas_remark(at, n, spelled, m);
        eas_part expected = sheet_remark(p->parsed[i], p->sheet[i]->bytes, spelling->bytes, m);
        expect(p, spelling, same_part(remark, expected), "eas_remark is not the sheet's own");
    }
    expect(p, spelling, same_but_place(p->at[0], found[0], p->at[1], found[1]), "eas_find differs between the sheets");
    expect(p, spelling, answers_differ(&answers[0], &answers[1]) == NULL, "eas_search differs between the sheets");
    expect(p, spelling, same_mark(marks[0], marks[1]), "eas_plot differs between the sheets");
    compare_lines(p, spelling, spelled);
}

static void compare_listings(const sheet_pair *p, const name_list *list) {
    static uint8_t listing[LISTING_ROOM];
    const uint8_t *names = lent_input(&list_lent, list->bytes, list->n);
    eas_text first = eas_list(p->at[0], p->sheet[0]->n, names, list->n, listing, sizeof listing);
    uint8_t *out = lent_output(&listing_lent, first.length);
    eas_text second = eas_list(p->at[1], p->sheet[1]->n, names, list->n, out, first.length);
    bool same = first.number == 0 && second.number == 0 && second.length == first.length;
    expect(p, NULL, same && lent_output_is(&listing_lent, listing, first.length),
           "eas_list differs between the sheets");
    if (first.length == 0)
        return;
    out = lent_output(&listing_lent, first.length - 1);
    second = eas_list(p->at[1], p->sheet[1]->n, names, list->n, out, first.length - 1);
    expect(p, NULL, second.number == 14 && second.length == 0 && lent_output_is(&listing_lent, NULL, 0),
           "eas_list's room differs between the sheets");
}

void compare_pair(random_source *r, sheet_pair *p) {
    static name_list list;
    tried_bytes spelling;
    const parsed_sheet *parsed = p->parsed[0];
    for (int i = 0; i < 2; i++)
        p->at[i] = lent_input(&lent[i], p->sheet[i]->bytes, p->sheet[i]->n);
    const uint32_t numbers[] = {eas_check(p->at[0], p->sheet[0]->n), eas_check(p->at[1], p->sheet[1]->n)};
    expect(p, NULL, numbers[0] == numbers[1], "eas_check differs between the sheets");
    expect(p, NULL, numbers[0] == parsed->number && numbers[1] == p->parsed[1]->number, "eas_check's number");
    random_list(&list, r, parsed, p->sheet[0]);
    compare_listings(p, &list);
    random_spelling(&spelling, r);
    compare_spelled(p, &spelling);
    size_t step = parsed->count / 8 + 1;
    for (size_t i = random_below(r, step); i < parsed->count; i += step) {
        const eas_record *record = &parsed->records[i];
        random_spelling_of(&spelling, r, p->sheet[0]->bytes + record->start, record->length);
        compare_spelled(p, &spelling);
        compare_place(p, i);
    }
    compare_place(p, parsed->count);
    compare_place(p, random_bits(r) >> random_below(r, 64));
    compare_steps(p, (uint32_t)random_below(r, parsed->count + 2));
    for (int i = 0; i < 2; i++)
        expect(p, NULL, lent_input_kept(&lent[i], p->sheet[i]->bytes), "a sheet's bytes changed");
}
