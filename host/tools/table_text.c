/* Method: the rows are gone through twice, first for the columns' widths. */
#include <string.h>

#include "decimal.h"
#include "fields.h"
#include "table.h"
#include "utf8.h"

enum { NUMBER, NAME, WANTED, FIRST, DENSITY, ANSWER, REFUSED_FOR, REMARK, CELLS, CELL_ROOM = REMARK_SPELLED_MOST + 32 };

static const char *const headings[CELLS] = {"no", "name", "wanted", "given", "density", "answer", "refused", "remark"};

/* Numbers stand at the right of their column. */
static const bool right[CELLS] = {[NUMBER] = true, [FIRST] = true, [DENSITY] = true, [ANSWER] = true};

typedef struct {
    char text[CELLS][CELL_ROOM];
} cells;

typedef struct {
    FILE *out;
    size_t width[CELLS];
} layout;

/* How many characters a text has. */
static size_t width_of(const char *text) {
    size_t width = 0;
    for (; *text; text++)
        width += (*text & 0xc0) != 0x80;
    return width;
}

/* Bytes as they are where they are text, else their percent form. */
static void put_text(char out[CELL_ROOM], const uint8_t *bytes, size_t n, const char *spelled) {
    if (is_text(bytes, n))
        snprintf(out, CELL_ROOM, "%.*s", (int)n, (const char *)bytes);
    else
        snprintf(out, CELL_ROOM, "%s (spelled)", spelled);
}

static void put_state(cells *c, const table_row *r) {
    char number[DECIMAL_ROOM], remark[REMARK_SPELLED_MOST + 1];
    const kind_row *kind = r->kind;
    snprintf(c->text[NUMBER], CELL_ROOM, "%u", r->number);
    put_text(c->text[NAME], r->s.name, r->s.length, r->s.spelled);
    snprintf(c->text[WANTED], CELL_ROOM, "%s", kind->wanted->name);
    write_decimal(number, r->s.first, kind->first->decimals);
    snprintf(c->text[FIRST], CELL_ROOM, "%s %s", number, kind->first->unit);
    write_decimal(number, r->s.second, kind->second->decimals);
    snprintf(c->text[DENSITY], CELL_ROOM, "%s %s", number, kind->second->unit);
    spell_remark(&r->s, remark);
    if (r->s.remark_length > 0)
        put_text(c->text[REMARK], r->s.remark, r->s.remark_length, remark);
}

static void put_cells(cells *c, const table_row *r) {
    char number[DECIMAL_ROOM];
    memset(c, 0, sizeof *c);
    if (r->number)
        put_state(c, r);
    else
        snprintf(c->text[NAME], CELL_ROOM, "%s", shown(r->asked));
    if (r->refusal) {
        snprintf(c->text[REFUSED_FOR], CELL_ROOM, "%u: %s", r->refusal, r->reason);
        return;
    }
    write_value(number, r->value, r->kind->wanted->decimals);
    snprintf(c->text[ANSWER], CELL_ROOM, "%s %s", number, r->kind->wanted->unit);
}

static void widen(layout *l, const cells *c) {
    for (int i = 0; i < CELLS; i++) {
        size_t width = width_of(c->text[i]);
        l->width[i] = width > l->width[i] ? width : l->width[i];
    }
}

static void measure_row(void *data, const table_row *r) {
    cells c;
    put_cells(&c, r);
    widen(data, &c);
}

/* A line without blanks at its end; a column that is empty in every row is left out. */
static void write_cells(const layout *l, const cells *c) {
    size_t blanks = 0;
    for (int i = 0; i < CELLS; i++) {
        size_t width = width_of(c->text[i]), rest = l->width[i] - width;
        if (l->width[i] == 0)
            continue;
        if (width > 0) {
            fprintf(l->out, "%*s%s", (int)(blanks + (right[i] ? rest : 0)), "", c->text[i]);
            blanks = right[i] ? 0 : rest;
        } else {
            blanks += rest;
        }
        blanks += 2;
    }
    fputc('\n', l->out);
}

static void write_row(void *data, const table_row *r) {
    cells c;
    put_cells(&c, r);
    write_cells(data, &c);
}

void write_table_text(FILE *out, const table_source *source) {
    layout l = {.out = out};
    cells head;
    memset(&head, 0, sizeof head);
    each_row(source, &(table_taker){measure_row, &l});
    for (int i = 0; i < CELLS; i++)
        if (l.width[i] > 0)
            snprintf(head.text[i], CELL_ROOM, "%s", headings[i]);
    widen(&l, &head);
    write_cells(&l, &head);
    each_row(source, &(table_taker){write_row, &l});
}
