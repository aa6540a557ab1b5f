/* What stands around the panels: title, ruler and legend; and the pages. */
#include <math.h>
#include <stdio.h>
#include <string.h>

#include "limits.h"
#include "options.h"
#include "plot.h"

static const colour panel_inks[KIND_COUNT] = {{0.75, 0.22, 0.17}, {0.12, 0.37, 0.66}, {0.13, 0.47, 0.25}};

/* Heights on the page. */
enum { TITLE = 30, RULER = 56, FIRST_PANEL = 130, PANEL = 430, ONLY_PANEL = 640, BELOW_PANEL = 112, LEGEND_PITCH = 16 };

/* The shapes of marks, and what they are called. */
enum { SHAPES = 3 };
static const item shapes[SHAPES] = {{.fitted = false}, {.fitted = true}, {.fitted = true, .joined = true}};

/* Whether a panel has a mark of this shape. */
static bool has_shape(const chart *c, const panel *p, const item *shape) {
    for (unsigned i = 0; i < c->count; i++) {
        const item *it = &c->items[i];
        if (is_point_of(it, p->kind) && it->fitted == shape->fitted && it->joined == shape->joined)
            return true;
    }
    return false;
}

/* A line for each shape of each panel, two for the curves, one for their steps and for those between neighbours of each
 * panel that has any, and one for remarks. */
static int legend_lines(const chart *c) {
    int lines = c->remarks > 0 ? 3 : 2;
    for (unsigned i = 0; i < c->panel_count * SHAPES; i++)
        lines += has_shape(c, &c->panels[i / SHAPES], &shapes[i % SHAPES]);
    for (unsigned i = 0; i < c->panel_count; i++)
        lines += (curve_steps(c, &c->panels[i]).count > 0) + (mark_steps(NULL, c, &c->panels[i]).count > 0);
    return lines;
}

/* A panel for each kind that has a point. */
static void find_panels(chart *c) {
    c->panel_count = 0;
    for (int k = 0; k < KIND_COUNT; k++) {
        panel p = {.kind = &kinds[k], .ink = panel_inks[k]};
        for (unsigned i = 0; i < c->count; i++)
            p.points += is_point_of(&c->items[i], p.kind);
        if (p.points > 0)
            c->panels[c->panel_count++] = p;
    }
}

/* The panels one below the other, each on its own page where there are pages. */
static void place_panels(chart *c) {
    double height = c->paged || c->panel_count == 1 ? ONLY_PANEL : PANEL;
    double pitch = c->paged ? SHEET_HEIGHT : height + BELOW_PANEL;
    c->plot_bottom = FIRST_PANEL + 40;
    for (unsigned i = 0; i < c->panel_count; i++) {
        c->panels[i].top = FIRST_PANEL + i * pitch;
        c->panels[i].bottom = c->panels[i].top + height;
        c->plot_bottom = c->panels[i].bottom + 64;
    }
}

/* A line of the legend; returns the next one's height. */
static double legend(figure *f, double y, const item *shape, colour ink, const char *text) {
    if (shape)
        draw_shape(f, (point){LIST_LEFT + 8, y - 4}, ink, 4, shape);
    f->text(f, (point){LIST_LEFT + 24, y}, (lettering){11, dark, 0, false, false}, text);
    return y + LEGEND_PITCH;
}

/* The shapes of a panel's marks; returns the next line's height. */
static double draw_shapes(figure *f, const chart *c, const panel *p, double y) {
    char perfect[32], text[96];
    snprintf(perfect, sizeof perfect, "perfect gas (Z up to %g)", MILLIONTHS(PERFECT_Z));
    const char *const words[SHAPES] = {perfect, "one band", "joined between two bands (shaded strips)"};
    for (int i = 0; i < SHAPES; i++) {
        snprintf(text, sizeof text, "%s, %s", p->kind->wanted->name, words[i]);
        if (has_shape(c, p, &shapes[i]))
            y = legend(f, y, &shapes[i], p->ink, text);
    }
    return y;
}

/* Steps in words: one, or the least and the largest. */
static const char *steps_text(const steps *s) {
    static char text[48];
    if (s->count == 1)
        snprintf(text, sizeof text, "%+.2f %%", s->least);
    else
        snprintf(text, sizeof text, "%+.2f to %+.2f %%", s->least, s->most);
    return text;
}

/* How large the steps of a panel are, across its curves and between neighbours; returns the next line's height. */
static double draw_steps(figure *f, const chart *c, const panel *p, double y) {
    const steps across = curve_steps(c, p), marked = mark_steps(NULL, c, p);
    const char *name = p->kind->wanted->name;
    char text[128];
    if (across.count > 0) {
        snprintf(text, sizeof text, "%s steps across it: %s", name, steps_text(&across));
        y = legend(f, y, NULL, grey, text);
    }
    if (marked.count > 0) {
        snprintf(text, sizeof text, "%s between neighbours: %u, %s", name, marked.count, steps_text(&marked));
        draw_line(f, LIST_LEFT - 2, y - 4, LIST_LEFT + 18, y - 4, (pen){step_ink, 3, false});
        y = legend(f, y, NULL, grey, text);
    }
    return y;
}

/* The lines for the curves say what Z is; pressures and remarks are spoken of where there are any. */
static void draw_legend(figure *f, const chart *c, double y) {
    bool has_pressures = false;
    for (unsigned i = 0; i < c->panel_count; i++) {
        y = draw_shapes(f, c, &c->panels[i], y);
        has_pressures |= c->panels[i].kind->letter == 'P';
    }
    draw_line(f, LIST_LEFT - 2, y - 4, LIST_LEFT + 18, y - 4, (pen){grey, 1, true});
    y = legend(f, y, NULL, grey, "end of a fitted piece, or a limit, in Z, which is");
    y = legend(f, y, NULL, grey,
               has_pressures ? "log10 of p/p₀ over ρ/ρ₀, for entropy and pressure of e/e₀"
                             : "log10 of p/p₀ over ρ/ρ₀, for entropy of e/e₀");
    for (unsigned i = 0; i < c->panel_count; i++)
        y = draw_steps(f, c, &c->panels[i], y);
    if (c->remarks == 0)
        return;
    f->text(f, (point){LIST_LEFT - 2, y}, (lettering){REMARK_SIZE, grey, 0, false, false}, "abc");
    legend(f, y, NULL, grey, "in the list: the remark of the state above");
}

/* "37 states", or "12 of 37 states" where some were chosen. */
static void draw_title(figure *f, const chart *c, double top) {
    char text[512], some[32] = "";
    if (c->count < c->of)
        snprintf(some, sizeof some, "%u of ", c->count);
    snprintf(text, sizeof text, "%.300s: %s%u %s", c->title, some, c->of, c->of == 1 ? "state" : "states");
    if (c->blanks > 0)
        snprintf(text + strlen(text), sizeof text - strlen(text), ", %u of them without a point", c->blanks);
    f->text(f, (point){LEFT, top + TITLE}, (lettering){18, black, 0, false, true}, text);
}

static void draw_marked_panel(figure *f, chart *c, const panel *p) {
    clear_page();
    draw_panel(f, c, p);
    place_marks(c, p);
    label_curves(f, c, p);
    mark_steps(f, c, p);
    draw_marks(f, c, p);
}

/* What stands above and beside the panels; where there are pages, on each page with a panel. */
static void draw_around(figure *f, const chart *c, double top) {
    draw_title(f, c, top);
    draw_ruler(f, c, top + RULER);
    draw_legend(f, c, top + TITLE);
}

int draw_chart(chart *c, const char *path) {
    figure *f = c->paged ? open_pages(path, SHEET_WIDTH, SHEET_HEIGHT, c->pages)
                         : open_figure(path, ceil(c->width), ceil(c->height));
    if (!f)
        return REFUSED;
    draw_around(f, c, 0);
    for (unsigned i = 0; i < c->panel_count; i++) {
        if (c->paged && i > 0) {
            f->begin_page(f, i);
            draw_around(f, c, i * (double)SHEET_HEIGHT);
        }
        draw_marked_panel(f, c, &c->panels[i]);
    }
    if (c->panel_count == 0)
        f->text(f, (point){LEFT, FIRST_PANEL}, (lettering){13, dark, 0, false, false}, "no state has a point");
    if (!c->no_list)
        draw_list(f, c);
    return f->finish(f);
}

static bool fits(chart *c) {
    place_panels(c);
    fit_axes(c);
    c->list_top = fmax(LIST_TOP, TITLE + LEGEND_PITCH * legend_lines(c) - 2);
    return lay_out_list(c);
}

void lay_out(chart *c, bool in_pages) {
    c->paged = false;
    find_panels(c);
    bool is_beside = fits(c);
    c->paged = in_pages && !is_beside;
    if (c->paged)
        fits(c);
}
