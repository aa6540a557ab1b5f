#include "checklist_rows.h"

#include <stdlib.h>
#include <string.h>
#include <strings.h>

#include "checklist_ask.h"

/* What is left of a text. */
typedef struct {
    char *at, *end;
    char separator;
} rest;

bool field_is(field f, const char *word) {
    return f.length == strlen(word) && !strncasecmp(f.bytes, word, f.length);
}

/* The first sign that separates fields, of those that the first line has; a comma where it has none. */
static char separator_of(const char *text) {
    const char *at = strpbrk(text, ",;\t\n");
    if (!at || *at == '\n')
        return ',';
    return *at;
}

/* A field in quotes, each doubled quote made one; the rest moves behind the closing quote. */
static field quoted(rest *r) {
    char *to = ++r->at;
    field f = {to, 0};
    while (r->at < r->end && (*r->at != '"' || r->at[1] == '"')) {
        r->at += *r->at == '"';
        *to++ = *r->at++;
        f.length++;
    }
    r->at += r->at < r->end;
    return f;
}

static field plain(rest *r) {
    field f = {r->at, 0};
    while (r->at < r->end && *r->at != r->separator && *r->at != '\n')
        r->at++;
    f.length = (size_t)(r->at - f.bytes);
    if (f.length > 0 && f.bytes[f.length - 1] == '\r')
        f.length--;
    return f;
}

/* A line; fields behind the last one are passed over. */
static text_row next_row(rest *r, unsigned line) {
    text_row row = {line, {{"", 0}, {"", 0}, {"", 0}}};
    for (int i = 0;; i++) {
        field f = r->at < r->end && *r->at == '"' ? quoted(r) : plain(r);
        if (i < FIELDS)
            row.fields[i] = f;
        while (r->at < r->end && *r->at != r->separator && *r->at != '\n')
            r->at++;
        if (r->at >= r->end || *r->at++ == '\n')
            return row;
    }
}

static bool is_heading(const text_row *row) {
    return row->line == 1 && field_is(row->fields[NAME_FIELD], "name") && field_is(row->fields[VALUE_FIELD], "value");
}

static void keep(text_rows *all, text_row row) {
    if (all->count == all->room) {
        all->room = 2 * all->room + 64;
        all->rows = checked(realloc(all->rows, all->room * sizeof *all->rows));
    }
    all->rows[all->count++] = row;
}

text_rows split_rows(char *text, size_t n) {
    text_rows all = {0};
    size_t mark = !strncmp(text, "\xEF\xBB\xBF", 3) ? 3 : 0;
    rest r = {text + mark, text + n, separator_of(text)};
    for (unsigned line = 1; r.at < r.end; line++) {
        text_row row = next_row(&r, line);
        if (row.fields[NAME_FIELD].length > 0 && !is_heading(&row))
            keep(&all, row);
    }
    return all;
}
