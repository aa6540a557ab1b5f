/* Method: a row is written before the next one is read, so that a text of any length takes the memory of one row. */
#include "eval.h"

#include <string.h>
#include <time.h>
#include <unistd.h>

#include "columns.h"
#include "common.h"
#include "options.h"
#include "quoting.h"

enum { ANSWER_HEADINGS = 4, ROWS_A_LOOK = 4096 };

static const char *const answer_headings[ANSWER_HEADINGS] = {"answer", "unit", "refusal", "reason"};

typedef struct {
    complaints told;
    columns c;
    row_taker taker;
    FILE *out;
    bool has_heading, is_unusable, comma, shows;
    unsigned long rows;
    time_t shown;
} evaluation;

/* Where standard error is a terminal: how far it is, once a second. */
static void show_progress(evaluation *e) {
    if (!e->shows || ++e->rows % ROWS_A_LOOK != 0 || time(NULL) == e->shown)
        return;
    e->shown = time(NULL);
    fprintf(stderr, "\r%lu rows", e->rows);
}

static void write_fields(const evaluation *e, const row *r) {
    for (size_t i = 0; i < r->count || i < e->c.width; i++) {
        if (i > 0)
            fputc(e->taker.delimiter, e->out);
        if (i < r->count)
            write_field(e->out, e->taker.delimiter, r->fields[i].text, r->fields[i].length);
    }
}

/* The answer's cells, each with a delimiter before it. */
static void write_cells(const evaluation *e, const char *const cells[ANSWER_HEADINGS]) {
    for (int i = 0; i < ANSWER_HEADINGS; i++) {
        fputc(e->taker.delimiter, e->out);
        write_field(e->out, e->taker.delimiter, cells[i], strlen(cells[i]));
    }
    fputc('\n', e->out);
}

static void take_heading(evaluation *e, const row *r) {
    e->c.comma = e->taker.delimiter != ',';
    e->has_heading = true;
    e->is_unusable = !read_headings(&e->c, r, false, false);
    e->taker.comments = may_have_comments(&e->c);
    for (size_t i = 0; i < r->count; i++)
        for (int k = 0; k < ANSWER_HEADINGS && !e->is_unusable; k++)
            if (equals(trimmed(r->fields[i]), answer_headings[k]))
                e->is_unusable = !complain(&e->told, r, "there is a column '%s' already", answer_headings[k]);
    if (e->is_unusable)
        return;
    write_fields(e, r);
    write_cells(e, answer_headings);
}

/* Whether one of the row's numbers has a decimal comma. */
static bool has_comma(const evaluation *e, const row *r) {
    for (int column = FIRST_GIVEN; column < COLUMNS; column++) {
        field f = cell(&e->c, r, column);
        if (e->c.comma && memchr(f.text, ',', f.length))
            return true;
    }
    return false;
}

static void write_answer(evaluation *e, const row_state *s) {
    char value[DECIMAL_ROOM], number[16] = "";
    eas_answer answer = eas_evaluate(s->kind->kind, s->first, s->second);
    write_value(value, answer.value, s->kind->wanted->decimals);
    char *point = e->comma ? strchr(value, '.') : NULL;
    if (point)
        *point = ',';
    if (answer.number)
        snprintf(number, sizeof number, "%u", answer.number);
    write_cells(e, (const char *const[]){answer.number ? "" : value, answer.number ? "" : s->kind->wanted->unit, number,
                                         answer.number ? eas_reason(answer.number) : ""});
}

static void take(void *data, const row *r) {
    evaluation *e = data;
    row_state s;
    if (is_blank_row(r) || e->is_unusable)
        return;
    if (!e->has_heading) {
        take_heading(e, r);
        return;
    }
    show_progress(e);
    write_fields(e, r);
    e->comma |= has_comma(e, r);
    if (read_row_state(&e->c, r, &s))
        write_answer(e, &s);
    else
        write_cells(e, (const char *const[]){"", "", "", e->told.last});
}

/* Ends the line that shows how far it is, and tells what was not told. */
static int finish(const evaluation *e) {
    if (e->shown)
        fputc('\n', stderr);
    tell_untold(&e->told);
    if (e->told.rounded > 0)
        refuse("%s: %lu number%s rounded", e->told.input, e->told.rounded, e->told.rounded == 1 ? "" : "s");
    if (!e->has_heading)
        return refuse("%s: empty: a heading and states are wanted", e->told.input);
    return e->told.count ? REFUSED : DONE;
}

int eval_rows(const char *input, const char *output, bool round) {
    static evaluation e;
    FILE *in = open_input(input), *out = in ? open_output(output) : NULL;
    if (!out)
        return REFUSED;
    e = (evaluation){.told = {.input = input_name(input)},
                     .taker = {.take = take, .data = &e, .comments = true},
                     .out = out,
                     .shows = isatty(STDERR_FILENO) != 0};
    e.c.told = &e.told;
    e.c.round = round;
    int failed = read_rows(e.told.input, in, &e.taker), wrong = finish(&e);
    if (in != stdin)
        fclose(in);
    if (failed || !e.has_heading || e.is_unusable) {
        drop_output(out);
        return REFUSED;
    }
    return close_output(out, output) || wrong ? REFUSED : DONE;
}

int eval_state(const char *output, const char *kind, const char *first, const char *density) {
    row_state s = {named_kind(field_of(kind)), 0, 0};
    char value[DECIMAL_ROOM], line[2 * DECIMAL_ROOM];
    if (!s.kind)
        return refuse("kind: refusal %u: %s: '%s'", EAS_KIND_UNKNOWN, eas_reason(EAS_KIND_UNKNOWN),
                      shown(field_of(kind)));
    if (!read_argument(first, s.kind->first, &s.first) || !read_argument(density, s.kind->second, &s.second))
        return REFUSED;
    eas_answer answer = eas_evaluate(s.kind->kind, s.first, s.second);
    if (answer.number)
        return refuse("refusal %u: %s", answer.number, eas_reason(answer.number));
    write_value(value, answer.value, s.kind->wanted->decimals);
    int n = snprintf(line, sizeof line, "%s %s\n", value, s.kind->wanted->unit);
    return write_output(output, line, (size_t)n);
}
