/* The list of all states: beside the panels as far as it fits there, the rest below them over the whole width. */
#include <math.h>
#include <stdio.h>
#include <stdlib.h>
#include <string.h>

#include "plot.h"
#include "utf8.h"

enum {
    ROWS_MOST = SHEET_MOST,
    NUMBERS_MOST = 32,
    COLUMNS_MOST = 1024,
    NAME_WIDEST = 330,
    NAME_LEAST = 56,
    REMARK_INDENT = 8,
    GAP = 26
};

static const double SIZE = 10, PITCH = 13;

/* A part of the list: a panel's states, or the states without a point for one reason. */
typedef struct {
    const panel *p;           /* null for those without a point */
    char heading[SHOWN_ROOM]; /* for those with what the refusal means */
    size_t short_length;      /* of the heading at the top of a column that begins inside the section */
} section;

typedef enum { A_HEADING, A_NAME, A_REMARK } row_sort;

/* A line of the list: a heading, a state's name or, without a state, a further line of a long name, or a line of a
 * remark; an empty one is a gap. The text is that of the section or of an item. */
typedef struct {
    const section *of;
    const item *it;
    const char *text;
    size_t length;
    row_sort sort;
    point at;
} list_row;

static section sections[KIND_COUNT + NUMBERS_MOST];
static list_row rows[ROWS_MOST], repeated[COLUMNS_MOST];
static size_t section_count, row_count, repeated_count;
static double number_width, name_width, across_width, up_width, column_width;

/* A row shows at least a byte of a name or a remark, and a record has 18 bytes more, enough for a heading and a gap, so
 * that there are rows for every sheet. */
static list_row *add_row(const section *of) {
    if (row_count == ROWS_MOST)
        abort();
    rows[row_count] = (list_row){.of = of, .sort = A_NAME};
    return &rows[row_count++];
}

static double size_of(row_sort sort) {
    return sort == A_REMARK ? REMARK_SIZE : SIZE;
}

/* What a row of a sort has for its text: a remark may stand below the values too. */
static double width_of(row_sort sort) {
    return sort == A_HEADING ? column_width
           : sort == A_NAME  ? name_width
                             : column_width - number_width - 8 - REMARK_INDENT;
}

/* The first n bytes of a text, until the next call. */
static const char *part_of(const char *text, size_t n) {
    static char part[REMARK_SHOWN_ROOM];
    memcpy(part, text, n);
    part[n] = 0;
    return part;
}

/* How many bytes of a text fit a row: all of them, or up to the last space, or as many as there is room for. */
static size_t fitting(const char *text, row_sort sort) {
    double size = size_of(sort), width = width_of(sort);
    bool bold = sort == A_HEADING;
    size_t n = strlen(text), at = 0, space = 0;
    if (text_width(text, size, bold) <= width)
        return n;
    while (at < n) {
        size_t next = at + utf8_first((const uint8_t *)text + at, n - at).length;
        if (at > 0 && text_width(part_of(text, next), size, bold) > width)
            break;
        if (text[at] == ' ')
            space = next;
        at = next;
    }
    return space > 0 ? space : at;
}

/* Adds a text in as many rows as it needs; returns the first. */
static list_row *add_text(const section *of, const char *text, row_sort sort) {
    list_row *first = NULL;
    while (*text || !first) {
        list_row *r = add_row(of);
        r->text = text;
        r->length = fitting(text, sort);
        r->sort = sort;
        first = first ? first : r;
        text += r->length;
    }
    return first;
}

/* A state's name and, below it, its remark. */
static void add_state(const section *of, const item *it) {
    add_text(of, it->name, A_NAME)->it = it;
    if (it->remark[0])
        add_text(of, it->remark, A_REMARK);
}

/* The widths of the columns by what stands in them. */
static void measure(const chart *c) {
    char number[16];
    number_width = name_width = 0;
    for (unsigned i = 0; i < c->count; i++) {
        snprintf(number, sizeof number, "%u", c->items[i].number);
        number_width = fmax(number_width, text_width(number, SIZE, false));
        name_width = fmax(name_width, fmin(text_width(c->items[i].name, SIZE, false), NAME_WIDEST));
    }
    name_width = fmax(ceil(name_width), NAME_LEAST);
    across_width = text_width("log10 ρ/ρ₀", SIZE, false) + 10;
    up_width = text_width("00000.00", SIZE, false);
    for (unsigned i = 0; i < c->count * c->panel_count; i++) {
        const item *it = &c->items[i / c->panel_count];
        const kind_row *kind = c->panels[i % c->panel_count].kind;
        if (is_point_of(it, kind))
            up_width = fmax(up_width, text_width(value_text(it, kind), SIZE, false));
    }
    up_width += 8;
    column_width = number_width + 8 + name_width + across_width + up_width;
}

static void add_panel(const chart *c, const panel *p) {
    section *s = &sections[section_count++];
    s->p = p;
    s->short_length = (size_t)snprintf(s->heading, sizeof s->heading, "%s", p->kind->wanted->name);
    add_text(s, s->heading, A_HEADING);
    for (unsigned i = 0; i < c->count; i++)
        if (is_point_of(&c->items[i], p->kind))
            add_state(s, &c->items[i]);
    add_row(s);
}

/* The states without a point, below what their refusal means. */
static void add_blanks(const chart *c, uint32_t number) {
    section *s = NULL;
    for (unsigned i = 0; i < c->count; i++) {
        if (c->items[i].mark.blank != number)
            continue;
        if (!s) {
            s = &sections[section_count++];
            s->p = NULL;
            s->short_length = (size_t)snprintf(s->heading, sizeof s->heading, "no point, refusal %u", number);
            snprintf(s->heading + s->short_length, sizeof s->heading - s->short_length, ": %s", eas_reason(number));
            add_text(s, s->heading, A_HEADING);
        }
        add_state(s, &c->items[i]);
    }
    if (s)
        add_row(s);
}

/* A column that begins inside a section begins with its heading again. */
static void repeat_heading(const section *of, point at) {
    if (repeated_count == COLUMNS_MOST)
        return;
    repeated[repeated_count++] = (list_row){of, NULL, of->heading, of->short_length, A_HEADING, at};
}

/* A remark does not begin a column: its name would be far away. */
static bool is_before_remark(size_t row) {
    return row + 1 < row_count && rows[row].sort == A_NAME && rows[row + 1].sort == A_REMARK;
}

/* Fills columns of a part of the page from a row on; returns the first row that found no place. */
static size_t fill_columns(size_t from, box b, int columns) {
    int lines = (int)floor(b.h / PITCH);
    for (int i = 0; i < columns * lines && from < row_count; i++) {
        list_row *r = &rows[from];
        int column = i / lines, line = i % lines;
        point at = {b.x + column * (column_width + GAP), b.y + (line + 1) * PITCH};
        bool at_top = line == 0, at_end = line + 1 == lines;
        if (at_top && r->length == 0) {
            from++;
            i--;
        } else if (at_top && r->sort != A_HEADING) {
            repeat_heading(r->of, at);
        } else if (!at_end || !is_before_remark(from)) {
            r->at = at;
            from++;
        }
    }
    return from;
}

static int columns_in(double width) {
    return (int)fmax(floor((width + GAP) / (column_width + GAP)), 1);
}

/* On pages behind those of the panels. */
static void place_on_pages(chart *c) {
    size_t placed = 0;
    for (c->pages = c->panel_count > 0 ? c->panel_count : 1; placed < row_count; c->pages++) {
        box page = {PAGE_EDGE, c->pages * (double)SHEET_HEIGHT + PAGE_EDGE, SHEET_WIDTH - 2 * PAGE_EDGE,
                    SHEET_HEIGHT - 3 * PAGE_EDGE};
        placed = fill_columns(placed, page, columns_in(page.w));
    }
}

/* Below the panels from a row on; the page grows as the list does. */
static void place_below(chart *c, size_t from) {
    box below = {PAGE_EDGE, c->plot_bottom + PAGE_EDGE, PAGE_WIDTH - 2 * PAGE_EDGE, 0};
    int columns = columns_in(below.w);
    below.h = (ceil((double)(row_count - from) / columns) + (c->remarks > 0 ? 3 : 2)) * PITCH;
    fill_columns(from, below, columns);
    c->width = PAGE_WIDTH;
    c->height = below.y + below.h + PAGE_EDGE;
}

/* Beside the panels, then below them; gives whether all of it stands beside them. */
static bool place_rows(chart *c) {
    box beside = {LIST_LEFT, c->list_top, PAGE_WIDTH - PAGE_EDGE - LIST_LEFT, c->plot_bottom - c->list_top};
    int columns = columns_in(beside.w), needed = (int)ceil((double)row_count / floor(beside.h / PITCH - 1));
    size_t placed = fill_columns(0, beside, columns);
    c->height = c->plot_bottom + PAGE_EDGE;
    c->width = LIST_LEFT + fmin(needed, columns) * (column_width + GAP) - GAP + PAGE_EDGE;
    c->width = fmin(fmax(c->width, PAGE_LEAST), PAGE_WIDTH);
    if (placed < row_count)
        place_below(c, placed);
    return placed == row_count;
}

bool lay_out_list(chart *c) {
    section_count = row_count = repeated_count = 0;
    measure(c);
    for (unsigned i = 0; i < c->panel_count && !c->no_list; i++)
        add_panel(c, &c->panels[i]);
    for (uint32_t number = 1; number < NUMBERS_MOST && !c->no_list; number++)
        add_blanks(c, number);
    if (!c->paged)
        return place_rows(c);
    place_on_pages(c);
    return false;
}

/* A panel's heading names the columns too. */
static void draw_heading(figure *f, const list_row *r) {
    const lettering right = {SIZE, grey, 1, false, false};
    const panel *p = r->of->p;
    double x = r->at.x + number_width + 8 + name_width + across_width;
    f->text(f, r->at, (lettering){SIZE, p ? p->ink : black, 0, false, true}, part_of(r->text, r->length));
    if (!p)
        return;
    f->text(f, (point){x, r->at.y}, right, "log10 ρ/ρ₀");
    f->text(f, (point){x + up_width, r->at.y}, right, p->kind->wanted->unit);
}

static void draw_values(figure *f, const list_row *r) {
    const lettering right = {SIZE, black, 1, false, false};
    char text[32];
    double x = r->at.x + number_width + 8 + name_width + across_width;
    snprintf(text, sizeof text, "%.6f", across_of(r->it));
    f->text(f, (point){x, r->at.y}, right, text);
    f->text(f, (point){x + up_width, r->at.y}, right, value_text(r->it, r->of->p->kind));
}

static void draw_name(figure *f, const list_row *r) {
    char number[16];
    f->text(f, (point){r->at.x + number_width + 8, r->at.y}, (lettering){SIZE, black, 0, false, false},
            part_of(r->text, r->length));
    if (!r->it)
        return;
    snprintf(number, sizeof number, "%u", r->it->number);
    f->text(f, (point){r->at.x + number_width, r->at.y}, (lettering){SIZE, grey, 1, false, false}, number);
    if (r->of->p)
        draw_values(f, r);
}

static void draw_remark(figure *f, const list_row *r) {
    f->text(f, (point){r->at.x + number_width + 8 + REMARK_INDENT, r->at.y},
            (lettering){REMARK_SIZE, grey, 0, false, false}, part_of(r->text, r->length));
}

/* Whether a place is on a page; without pages every one is. */
static bool is_on(const chart *c, point at, unsigned page) {
    return !c->paged || (at.y >= page * (double)SHEET_HEIGHT && at.y < (page + 1) * (double)SHEET_HEIGHT);
}

static void draw_page(figure *f, const chart *c, unsigned page) {
    static void (*const draw[])(figure *, const list_row *) = {
        [A_HEADING] = draw_heading, [A_NAME] = draw_name, [A_REMARK] = draw_remark};
    for (size_t i = 0; i < row_count; i++)
        if (rows[i].length > 0 && is_on(c, rows[i].at, page))
            draw[rows[i].sort](f, &rows[i]);
    for (size_t i = 0; i < repeated_count; i++)
        if (is_on(c, repeated[i].at, page))
            draw_heading(f, &repeated[i]);
}

void draw_list(figure *f, const chart *c) {
    unsigned first = c->panel_count > 0 ? c->panel_count : 1;
    if (!c->paged)
        draw_page(f, c, 0);
    for (unsigned page = first; c->paged && page < c->pages; page++) {
        f->begin_page(f, page);
        draw_page(f, c, page);
    }
}
