/* Marks and their labels. What is covered is kept in a map of small squares, so that thousands of labels are tried
 * quickly. */
#include <math.h>
#include <stdio.h>
#include <string.h>

#include "plot.h"

enum { SQUARE = 2, COLUMNS = RIGHT / SQUARE + 1, ROWS = 2000, MOST_NAMED = 120, FEW = 60, MANY = 400 };

static bool covered[ROWS][COLUMNS];

void clear_page(void) {
    memset(covered, 0, sizeof covered);
}

/* The squares from a place on, of those that there are. */
static int square(double place, int count) {
    return (int)fmin(fmax(floor(place / SQUARE), 0), count - 1);
}

void keep_clear(box b) {
    if (b.w <= 0)
        return;
    for (int y = square(b.y, ROWS); y <= square(b.y + b.h, ROWS); y++)
        for (int x = square(b.x, COLUMNS); x <= square(b.x + b.w, COLUMNS); x++)
            covered[y][x] = true;
}

bool is_free(const panel *p, box b) {
    if (b.x < LEFT + 3 || b.x + b.w > RIGHT - 3 || b.y < p->top + 2 || b.y + b.h > p->bottom - 2)
        return false;
    for (int y = square(b.y, ROWS); y <= square(b.y + b.h, ROWS); y++)
        for (int x = square(b.x - 2, COLUMNS); x <= square(b.x + b.w + 2, COLUMNS); x++)
            if (covered[y][x])
                return false;
    return true;
}

/* A ring for the perfect gas, a disc for one band, a diamond for a join. */
void draw_shape(figure *f, point at, colour ink, double size, const item *it) {
    const point diamond[] = {
        {at.x, at.y - 1.4 * size}, {at.x + 1.4 * size, at.y}, {at.x, at.y + 1.4 * size}, {at.x - 1.4 * size, at.y}};
    if (it->joined)
        f->fill(f, diamond, 4, ink);
    else
        f->circle(f, at, size, (pen){ink, it->fitted ? 0 : 0.4 * size, false});
}

static double mark_size(const panel *p) {
    return p->points > MANY ? 1.8 : p->points > FEW ? 3 : 4;
}

/* Where a label of width w stands at a distance and direction (in sixteenths of a turn) from a mark; above and below it
 * the label may be moved to stay within the panel. */
static box label_box(point at, double w, double h, double distance, int direction) {
    double angle = direction * acos(-1) / 8, across = cos(angle), up = sin(angle);
    double anchor = across > 0.3 ? 0 : across < -0.3 ? 1 : 0.5, x = at.x + distance * across - anchor * w;
    if (fabs(across) <= 0.3)
        x = fmin(fmax(x, LEFT + 4), RIGHT - 4 - w);
    return (box){x, at.y - (distance + 0.2 * h) * up - h / 2, w, h};
}

/* The place nearest to the mark at which a label covers nothing; false where there is none. */
static bool find_room(const panel *p, point at, double w, double h, int rounds, box *place) {
    static const double steps[] = {0, 5, 12, 22, 34, 48, 64, 82};
    static const int directions[] = {0, 8, 4, 12, 2, 14, 6, 10, 1, 15, 7, 9, 3, 13, 5, 11};
    for (int i = 0; i < 16 * rounds; i++) {
        *place = label_box(at, w, h, mark_size(p) + 6 + steps[i / 16], directions[i % 16]);
        if (is_free(p, *place))
            return true;
    }
    return false;
}

/* What a mark is labelled with. */
static const char *label_of(const item *it, bool by_name) {
    static char number[16];
    snprintf(number, sizeof number, "%u", it->number);
    return by_name ? it->name : number;
}

/* Finds places for the labels of a panel's marks, 0 wide where there is none; returns how many have one. */
static unsigned place_labels(const chart *c, const panel *p, bool by_name, box *places) {
    double size = by_name ? 11 : 9;
    unsigned found = 0;
    for (unsigned i = 0; i < c->count; i++) {
        const item *it = &c->items[i];
        places[i].w = 0;
        if (!is_point_of(it, p->kind))
            continue;
        double w = text_width(label_of(it, by_name), size, false);
        box place;
        if (!find_room(p, it->place, w, size, by_name ? 7 : 2, &place))
            continue;
        keep_clear(place);
        places[i] = place;
        found++;
    }
    return found;
}

/* A label that stands away from its mark is tied to it by a line. */
static void tie(figure *f, point at, box b, double size) {
    point to = {fmin(fmax(at.x, b.x), b.x + b.w), fmin(fmax(at.y, b.y + 1), b.y + b.h - 1)};
    double length = hypot(to.x - at.x, to.y - at.y);
    if (length < size + 10)
        return;
    double start = (size + 1) / length;
    draw_line(f, at.x + start * (to.x - at.x), at.y + start * (to.y - at.y), to.x, to.y, (pen){grey, 0.7, false});
}

static void draw_label(figure *f, const panel *p, const item *it, box b, bool by_name) {
    tie(f, it->place, b, mark_size(p));
    f->text(f, (point){b.x, b.y + 0.85 * b.h}, (lettering){b.h, black, 0, false, false}, label_of(it, by_name));
}

static void draw_mark(figure *f, const panel *p, const item *it) {
    char title[SHOWN_ROOM + REMARK_SHOWN_ROOM + 96];
    snprintf(title, sizeof title, "%u  %s: %s %s, log10 of the density ratio %.6f%s%s", it->number, it->name,
             value_text(it, p->kind), p->kind->wanted->unit, across_of(it), it->remark[0] ? "; " : "", it->remark);
    f->open_group(f, title);
    draw_shape(f, it->place, p->ink, mark_size(p), it);
    f->close_group(f);
}

void place_marks(chart *c, const panel *p) {
    double reach = mark_size(p) + 1;
    for (unsigned i = 0; i < c->count; i++) {
        item *it = &c->items[i];
        if (!is_point_of(it, p->kind))
            continue;
        it->place = (point){page_x(c, across_of(it)), page_y(p, up_of(it, p->kind))};
        keep_clear((box){it->place.x - reach, it->place.y - reach, 2 * reach, 2 * reach});
    }
}

/* Says what numbers are, and how many marks have none. */
static void draw_note(figure *f, const chart *c, const panel *p, unsigned found) {
    char text[160], left[96] = "";
    if (found < p->points)
        snprintf(left, sizeof left, "; %u marks stand too close for one%s", p->points - found,
                 c->no_list ? "" : ", the list gives their place");
    snprintf(text, sizeof text, "numbers: %s%s", c->no_list ? "places in the sheet" : "see the list", left);
    f->text(f, (point){RIGHT, p->top - 24}, (lettering){11, grey, 1, false, false}, text);
}

void draw_marks(figure *f, const chart *c, const panel *p) {
    static box places[RECORDS_MOST];
    static bool before[ROWS][COLUMNS];
    memcpy(before, covered, sizeof covered);
    bool by_name = p->points <= MOST_NAMED;
    unsigned found = by_name ? place_labels(c, p, true, places) : 0;
    if (found < p->points) {
        by_name = false;
        memcpy(covered, before, sizeof covered);
        found = place_labels(c, p, false, places);
    }
    for (unsigned i = 0; i < c->count; i++)
        if (is_point_of(&c->items[i], p->kind))
            draw_mark(f, p, &c->items[i]);
    for (unsigned i = 0; i < c->count; i++)
        if (is_point_of(&c->items[i], p->kind) && places[i].w > 0)
            draw_label(f, p, &c->items[i], places[i], by_name);
    if (!by_name)
        draw_note(f, c, p, found);
}
