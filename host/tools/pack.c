/* Method: each row of the text becomes a record behind the sheet so far, and the library judges its name there. The
 * sheet is of version 1 until the first remark that is not empty. */
#include "pack.h"

#include <stdlib.h>
#include <string.h>

#include "columns.h"
#include "common.h"
#include "options.h"
#include "parts.h"

/* The sheet so far, with the line of each record, and the full ones before it where the text is split. */
typedef struct {
    complaints told;
    columns c;
    row_taker taker;
    const pack_options *how;
    bool has_heading, is_unusable;
    unsigned long looks_spelled; /* names that are taken as they stand */
    uint8_t *bytes;
    size_t n;
    unsigned long line[RECORDS_MOST];
    unsigned long full_line,
        left_over;        /* the row that did not fit, and how many rows follow it and count as one more */
    bool is_first_remark; /* that row has the first remark, which makes every record longer */
    sheet_parts parts;
} packing;

/* A record before it is appended. */
typedef struct {
    uint8_t name[NAME_MOST];
    size_t length;
    row_state state;
    uint8_t remark[REMARK_MOST];
    size_t remark_length;
} entry;

/* A raw name that could be a spelled one is taken as it stands, but told. */
static void note_spelled(packing *p, const row *r, field f) {
    uint8_t name[NAME_MOST];
    if (!memchr(f.text, '%', f.length) || read_spelled((const uint8_t *)f.text, f.length, name).number)
        return;
    if (p->looks_spelled++ < COMPLAINTS_MOST)
        refuse("%s: line %lu: note: '%s' is taken as it stands; names in percent form belong in a column 'spelled'",
               p->told.input, r->line, shown(f));
}

static bool read_entry_name(packing *p, const row *r, entry *e) {
    field raw = cell(&p->c, r, NAME), spelled = cell(&p->c, r, SPELLED);
    if (raw.length > 0 && spelled.length > 0)
        return complain(&p->told, r, "both a name and a spelled name are given");
    if (spelled.length > 0) {
        eas_text read = read_spelled((const uint8_t *)spelled.text, spelled.length, e->name);
        e->length = read.length;
        return read.number
                   ? complain(&p->told, r, "refusal %u: %s: '%s'", read.number, eas_reason(read.number), shown(spelled))
                   : true;
    }
    if (raw.length == 0)
        return complain(&p->told, r, "refusal %u: %s: it is empty", EAS_NAME_LENGTH, eas_reason(EAS_NAME_LENGTH));
    if (raw.length > NAME_MOST)
        return complain(&p->told, r, "refusal %u: %s: '%s' has %zu", EAS_NAME_LENGTH, eas_reason(EAS_NAME_LENGTH),
                        shown(raw), raw.length);
    note_spelled(p, r, raw);
    e->length = raw.length;
    memcpy(e->name, raw.text, raw.length);
    return true;
}

/* Reads a remark in percent form byte by byte, since the library reads no more than a name at once. */
static bool read_spelled_remark(packing *p, const row *r, field f, entry *e) {
    const uint8_t *spelled = (const uint8_t *)f.text;
    uint8_t byte;
    for (size_t at = 0, length; at < f.length; at += length, e->remark_length++) {
        length = spelled[at] != '%' ? 1 : f.length - at < 3 ? f.length - at : 3;
        uint32_t number = eas_read(spelled + at, length, &byte, 1).number;
        if (number)
            return complain(&p->told, r, "%s: refusal %u: %s: '%s'", headings[REMARK_SPELLED], number,
                            eas_reason(number), shown(f));
        if (e->remark_length < REMARK_MOST)
            e->remark[e->remark_length] = byte;
    }
    return true;
}

static bool read_entry_remark(packing *p, const row *r, entry *e) {
    field raw = cell(&p->c, r, REMARK), spelled = cell(&p->c, r, REMARK_SPELLED);
    if (raw.length > 0 && spelled.length > 0)
        return complain(&p->told, r, "both a remark and a spelled remark are given");
    e->remark_length = raw.length;
    memcpy(e->remark, raw.text, raw.length < REMARK_MOST ? raw.length : REMARK_MOST);
    if (spelled.length > 0 && !read_spelled_remark(p, r, spelled, e))
        return false;
    if (e->remark_length > REMARK_MOST)
        return complain(&p->told, r, "the remark has %zu bytes, and %d is the most: '%s'", e->remark_length,
                        REMARK_MOST, shown(raw.length > 0 ? raw : spelled));
    return true;
}

/* Looks the name up in the sheet so far. */
static bool is_new(packing *p, const row *r, const entry *e) {
    uint8_t spelled[SPELLED_MOST];
    size_t length = eas_spell(e->name, e->length, spelled, sizeof spelled).length;
    eas_record found = eas_find(p->bytes, p->n, spelled, length);
    if (found.number == EAS_NAME_ABSENT)
        return true;
    return complain(&p->told, r, "refusal %u: %s, on line %lu", EAS_NAME_REPEATED, eas_reason(EAS_NAME_REPEATED),
                    p->line[record_at(p->bytes, found.start)]);
}

static void begin_sheet(packing *p) {
    p->n = put_head(p->bytes);
    if (p->how->version_2)
        put_number(p->bytes + 3, 2, 2);
}

/* Whether the sheet has room for an entry, or gets it by a new sheet. */
static bool has_room(packing *p, const row *r, const entry *e) {
    if (length_with(p->bytes, p->n, e->length, e->remark_length) <= SHEET_MOST)
        return true;
    if (p->how->split && keep_part(&p->parts, p->bytes, p->n)) {
        begin_sheet(p);
        return true;
    }
    p->full_line = r->line;
    p->is_first_remark = e->remark_length > 0 && sheet_version(p->bytes) == 1;
    return false;
}

static void take_state(packing *p, const row *r) {
    entry e = {.length = 0};
    if (!read_entry_name(p, r, &e) || !read_row_state(&p->c, r, &e.state) || !read_entry_remark(p, r, &e) ||
        !is_new(p, r, &e) || !has_room(p, r, &e))
        return;
    p->line[record_count(p->bytes)] = r->line;
    p->n = append_record(p->bytes, p->n, e.name, e.length, e.state.kind->kind, e.state.first, e.state.second);
    p->n = append_remark(p->bytes, p->n, e.remark, e.remark_length);
    count_state(&p->parts, &e.state);
}

static void take_heading(packing *p, const row *r) {
    p->c.comma = p->taker.delimiter != ',';
    p->has_heading = true;
    p->is_unusable = !read_headings(&p->c, r, true, true);
    p->taker.comments = may_have_comments(&p->c);
}

/* After a heading that cannot be used rows are passed over; after the sheet is full they are counted. */
static void take(void *data, const row *r) {
    packing *p = data;
    if (is_blank_row(r) || p->is_unusable)
        return;
    if (!p->has_heading)
        take_heading(p, r);
    else if (!p->full_line)
        take_state(p, r);
    else
        p->left_over++;
}

/* Tells how many of the states fit. */
static int refuse_full(const packing *p) {
    unsigned fit = record_count(p->bytes);
    return refuse("%s: line %lu: refusal %u: %s%s: the first %u of %lu states fit; --split writes more than one sheet",
                  p->told.input, p->full_line, EAS_SHEET_TOO_LONG, eas_reason(EAS_SHEET_TOO_LONG),
                  p->is_first_remark ? "; this first remark makes each state a byte longer" : "", fit,
                  fit + 1 + p->left_over);
}

/* Reads a text into a sheet and, where it is to be split, the parts before it. */
static int pack_rows(packing *p, FILE *in) {
    begin_sheet(p);
    int failed = read_rows(p->told.input, in, &p->taker);
    tell_untold(&p->told);
    if (p->looks_spelled > COMPLAINTS_MOST)
        refuse("%s: note: %lu more names look spelled", p->told.input, p->looks_spelled - COMPLAINTS_MOST);
    if (p->full_line && !failed)
        failed = refuse_full(p);
    if (failed || p->told.count)
        return REFUSED;
    if (!p->has_heading)
        return refuse("%s: empty: a heading and states are wanted", p->told.input);
    if (record_count(p->bytes) == 0)
        refuse("%s: note: there are no states below the heading", p->told.input);
    uint32_t number = eas_check(p->bytes, p->n);
    return number ? refuse("%s: refusal %u: %s", p->told.input, number, eas_reason(number)) : DONE;
}

static packing *begin(const char *name, const pack_options *how, uint8_t sheet[SHEET_MOST]) {
    static packing p;
    p = (packing){.told = {.input = name}, .how = how, .taker = {.take = take, .data = &p}};
    p.bytes = sheet;
    p.c.told = &p.told;
    p.c.round = how->round;
    p.taker.comments = true;
    return &p;
}

int pack_text(const char *name, const char *text, size_t n, uint8_t sheet[SHEET_MOST], size_t *length) {
    static const pack_options plain;
    packing *p = begin(name, &plain, sheet);
    FILE *in = fmemopen((void *)text, n, "r");
    int failed = in ? pack_rows(p, in) : refuse_file(name);
    if (in)
        fclose(in);
    *length = p->n;
    return failed;
}

int pack(const char *input, const char *output, const pack_options *how) {
    static uint8_t sheet[SHEET_MOST];
    FILE *in = open_input(input);
    if (!in)
        return REFUSED;
    packing *p = begin(input_name(input), how, sheet);
    int failed = pack_rows(p, in);
    if (in != stdin)
        fclose(in);
    if (!failed)
        failed = how->split ? write_parts(&p->parts, output, sheet, p->n) : write_output(output, sheet, p->n);
    if (!failed)
        tell_packed(&p->parts, &p->told, p->n);
    free_parts(&p->parts);
    return failed;
}
