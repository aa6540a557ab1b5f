/* Method: the places of the records are sorted by name once, and every name of a run list is looked for among them. */
#include <stdlib.h>
#include <string.h>

#include "fields.h"
#include "table.h"

/* Where a record begins, and its number from 1. */
typedef struct {
    const uint8_t *at;
    unsigned number;
} place;

/* The places of a sheet's records, in order of their names. */
typedef struct {
    place of[RECORDS_MOST];
    size_t count;
} places;

/* Length byte and name of two records; any order will do. */
static int by_name(const void *a, const void *b) {
    const uint8_t *x = ((const place *)a)->at, *y = ((const place *)b)->at;
    return x[0] != y[0] ? x[0] - y[0] : memcmp(x + 1, y + 1, x[0]);
}

static void find_places(places *p, const uint8_t *sheet) {
    size_t at = HEAD;
    p->count = record_count(sheet);
    for (unsigned i = 0; i < p->count; i++) {
        p->of[i] = (place){sheet + at, i + 1};
        next_state(sheet, &at);
    }
    qsort(p->of, p->count, sizeof *p->of, by_name);
}

/* Puts the record at *at into the row, with its answer. */
static void put_state(table_row *r, const uint8_t *sheet, size_t *at, unsigned number) {
    r->s = next_state(sheet, at);
    r->number = number;
    r->kind = kind_of(r->s.kind);
    eas_answer answer = eas_evaluate(r->s.kind, r->s.first, r->s.second);
    r->refusal = answer.number;
    r->value = answer.value;
    snprintf(r->reason, sizeof r->reason, "%s", answer.number ? eas_reason(answer.number) : "");
}

/* How a line that is no spelled name would be spelled, where it is short enough to be a name; says so behind `out`. */
static void propose(char *out, size_t room, field f) {
    char spelled[SPELLED_MOST + 1];
    eas_text text = eas_spell((const uint8_t *)f.text, f.length, (uint8_t *)spelled, SPELLED_MOST);
    spelled[text.length] = 0;
    if (!text.number)
        snprintf(out, room, ": '%s' would be spelled %s", shown(f), spelled);
    else if (f.length > 0)
        snprintf(out, room, ": '%s'", shown(f));
}

/* What is wrong with a line that no state has, in words. */
static void explain(table_row *r) {
    int used = snprintf(r->reason, sizeof r->reason, "%s", eas_reason(r->refusal));
    char *rest = r->reason + used;
    size_t room = sizeof r->reason - (size_t)used;
    field f = r->asked;
    if (r->refusal == EAS_NAME_ABSENT)
        return;
    if (f.length > 0 && f.text[f.length - 1] == '\r') {
        uint8_t name[NAME_MOST];
        used = snprintf(rest, room, ": it ends with a carriage return: the list has line ends CR LF");
        rest += used;
        room -= (size_t)used;
        f.length--;
        if (!read_spelled((const uint8_t *)f.text, f.length, name).number)
            return;
    }
    propose(rest, room, f);
}

static int by_key(const void *key, const void *record) {
    return by_name(key, record);
}

/* The row of a run list's line. */
static void find_row(table_row *r, const uint8_t *sheet, const places *p) {
    uint8_t name[1 + NAME_MOST];
    eas_text read = read_spelled((const uint8_t *)r->asked.text, r->asked.length, name + 1);
    name[0] = (uint8_t)read.length;
    const place key = {name, 0};
    const place *found = read.number ? NULL : bsearch(&key, p->of, p->count, sizeof *p->of, by_key);
    if (found) {
        size_t at = (size_t)(found->at - sheet);
        put_state(r, sheet, &at, found->number);
        return;
    }
    r->refusal = read.number ? read.number : EAS_NAME_ABSENT;
    explain(r);
}

/* The names stand one a line; a last one without newline counts unless it is empty. */
static void each_name(const table_source *source, const table_taker *taker) {
    static places p;
    const char *at = (const char *)source->names, *end = at + source->names_length;
    find_places(&p, source->sheet);
    for (unsigned long line = 1; at < end; line++) {
        const char *newline = memchr(at, '\n', (size_t)(end - at)), *stop = newline ? newline : end;
        table_row r = {.line = line, .asked = {at, (size_t)(stop - at)}};
        find_row(&r, source->sheet, &p);
        taker->take(taker->data, &r);
        at = newline ? newline + 1 : end;
    }
}

void each_row(const table_source *source, const table_taker *taker) {
    size_t at = HEAD;
    if (source->names) {
        each_name(source, taker);
        return;
    }
    for (unsigned i = 1; i <= record_count(source->sheet); i++) {
        table_row r = {.number = 0};
        put_state(&r, source->sheet, &at, i);
        taker->take(taker->data, &r);
    }
}
