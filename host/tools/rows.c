#include "rows.h"

#include <csv.h>
#include <stdlib.h>
#include <string.h>
#include <strings.h>

#include "common.h"
#include "options.h"

/* Where the reader stands in a field: before its first byte that is no blank, in it, in its quotes, behind them. */
typedef enum { START, PLAIN, QUOTED, CLOSED } standing;

/* A line, and the row that is being read. The row's fields stand one after the other in `text`. */
typedef struct {
    row_taker *taker;
    row current;
    char *text, *line;
    size_t used, room, row_length, line_length, line_room;
    standing at;
    bool open, failed; /* open: a quoted field goes on over the line's end */
} reading;

static bool enlarge(char **text, size_t *room, size_t wanted) {
    if (wanted <= *room)
        return true;
    size_t larger = 2 * wanted + 4096;
    char *moved = wanted <= ROW_MOST ? realloc(*text, larger) : NULL;
    if (!moved)
        return false;
    *text = moved;
    *room = larger;
    return true;
}

static void take_field(void *text, size_t length, void *data) {
    reading *r = data;
    if (r->current.count == FIELDS_MOST || !enlarge(&r->text, &r->room, r->used + length)) {
        r->failed = true;
        return;
    }
    if (length > 0)
        memcpy(r->text + r->used, text, length);
    r->current.fields[r->current.count++].length = length;
    r->used += length;
}

/* The texts get their places when all of them are there, since they move as the room grows. */
static void take_row(int end, void *data) {
    reading *r = data;
    const char *at = r->text ? r->text : "";
    (void)end;
    for (size_t i = 0; i < r->current.count; i++) {
        r->current.fields[i].text = at;
        at += r->current.fields[i].length;
    }
    if (!r->failed)
        r->taker->take(r->taker->data, &r->current);
    r->current.count = 0;
    r->used = r->row_length = 0;
    r->open = false;
}

/* Reads a line with its end: a newline, a carriage return or both. False where there is none left, or it is too long.
 */
static bool read_line(FILE *in, reading *r) {
    int c = 0;
    r->line_length = 0;
    while (c != '\n' && c != '\r' && (c = getc_unlocked(in)) != EOF) {
        r->failed = !enlarge(&r->line, &r->line_room, r->line_length + 2);
        if (r->failed)
            return false;
        r->line[r->line_length++] = (char)c;
    }
    if (c == '\r') {
        c = getc_unlocked(in);
        if (c == '\n')
            r->line[r->line_length++] = '\n';
        else if (c != EOF)
            ungetc(c, in);
    }
    return r->line_length > 0;
}

/* The first byte of a line that is neither space nor tab, or 0 where it is blank; a zero byte is given as 1. */
static int first_byte(const char *line, size_t n) {
    for (size_t at = 0; at < n; at++)
        if (!strchr(" \t\r\n", line[at]) || line[at] == 0)
            return line[at] == 0 ? 1 : line[at];
    return 0;
}

/* The delimiter that a line "sep=;" names, quoted or not, or 0. */
static char named_delimiter(const char *line, size_t n) {
    while (n > 0 && strchr("\r\n", line[n - 1]))
        n--;
    if (n == 7 && line[0] == '"' && line[6] == '"') {
        line++;
        n -= 2;
    }
    if (n != 5 || strncasecmp(line, "sep=", 4) != 0 || !strchr(",;\t", line[4]))
        return '\0';
    return line[4];
}

static char delimiter_of(const char *line, size_t n) {
    static const char delimiters[] = {',', ';', '\t'};
    for (size_t i = 0; i < sizeof delimiters; i++)
        if (memchr(line, delimiters[i], n))
            return delimiters[i];
    return ',';
}

/* Whether blanks alone stand before the next delimiter or the line's end. */
static bool ends_field(const reading *r, size_t at) {
    while (at < r->line_length && strchr(" \t", r->line[at]) && r->line[at] != r->taker->delimiter && r->line[at])
        at++;
    return at == r->line_length || r->line[at] == r->taker->delimiter || strchr("\r\n", r->line[at]);
}

/* Where the reader stands behind a byte. */
static standing behind(const reading *r, char c) {
    if (r->at == QUOTED)
        return c == '"' ? CLOSED : QUOTED;
    if (c == r->taker->delimiter)
        return START;
    if (c == '"' && r->at != PLAIN)
        return QUOTED;
    return r->at == START && (c == ' ' || c == '\t') ? START : PLAIN;
}

/* Takes the blanks around quotes out of the line: libcsv is told that no blank is one, since it would take those of
 * every other field too. */
static void tighten(reading *r) {
    size_t used = 0, begin = 0, n = r->line_length;
    for (size_t at = 0; at < n; at++) {
        char c = r->line[at];
        standing before = r->at;
        if (before == CLOSED && c != '"' && c != r->taker->delimiter && (c == ' ' || c == '\t') && ends_field(r, at))
            continue;
        r->at = behind(r, c);
        if (before == START && r->at == QUOTED)
            used = begin;
        r->line[used++] = c;
        if (r->at == START && c == r->taker->delimiter)
            begin = used;
    }
    r->at = r->at == QUOTED ? QUOTED : START;
    r->line_length = used;
}

static int never(unsigned char c) {
    (void)c;
    return 0;
}

/* Whether a line is no part of a row: blank, a comment, or one that names the delimiter. */
static bool is_passed(reading *r) {
    int first = first_byte(r->line, r->line_length);
    if (r->open)
        return false;
    if (first == 0 || (first == '#' && r->taker->comments))
        return true;
    if (r->taker->delimiter)
        return false;
    r->taker->delimiter = named_delimiter(r->line, r->line_length);
    return r->taker->delimiter != '\0';
}

/* Gives a line to the parser, which keeps a field until its end: so a row has a bound. */
static bool parse_line(struct csv_parser *parser, reading *r, bool is_first) {
    if (is_first) {
        if (!r->taker->delimiter)
            r->taker->delimiter = delimiter_of(r->line, r->line_length);
        csv_set_delim(parser, (unsigned char)r->taker->delimiter);
    }
    if (r->at == QUOTED || memchr(r->line, '"', r->line_length))
        tighten(r);
    r->open = true;
    r->row_length += r->line_length;
    r->failed = r->row_length > ROW_MOST;
    return r->failed || csv_parse(parser, r->line, r->line_length, take_field, take_row, r) == r->line_length;
}

/* Feeds the parser line by line, so that every row is known by its line. */
static int parse(const char *name, FILE *in, struct csv_parser *parser, reading *r) {
    bool is_first = true;
    unsigned long line = 1;
    for (; read_line(in, r); line++) {
        if (line == 1 && r->line_length >= 2 && (!memcmp(r->line, "\xff\xfe", 2) || !memcmp(r->line, "\xfe\xff", 2)))
            return refuse("%s: the text is UTF-16; save it as UTF-8", name);
        if (line == 1 && r->line_length >= 3 && !memcmp(r->line, "\xef\xbb\xbf", 3))
            memmove(r->line, r->line + 3, r->line_length -= 3);
        if (is_passed(r))
            continue;
        if (!r->open)
            r->current.line = line;
        if (!parse_line(parser, r, is_first))
            return refuse("%s: line %lu: no CSV: %s", name, line, csv_strerror(csv_error(parser)));
        if (r->failed)
            break;
        is_first = false;
    }
    if (r->failed)
        return refuse("%s: line %lu: over %d fields or %d bytes, or no memory", name, line, FIELDS_MOST, ROW_MOST);
    if (ferror(in))
        return refuse_file(name);
    if (csv_fini(parser, take_field, take_row, r))
        return refuse("%s: line %lu: a quoted field has no end", name, r->current.line);
    return DONE;
}

int read_rows(const char *name, FILE *in, row_taker *taker) {
    struct csv_parser parser;
    reading r = {.taker = taker};
    if (csv_init(&parser, CSV_STRICT | CSV_STRICT_FINI))
        return refuse("%s: the CSV reader cannot be started", name);
    csv_set_space_func(&parser, never);
    taker->delimiter = '\0';
    int failed = parse(name, in, &parser, &r);
    csv_free(&parser);
    free(r.text);
    free(r.line);
    return failed;
}
