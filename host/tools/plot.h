/* The parts of a plot: a sheet's states as marks over the density, a panel for each wanted quantity, and the list of
 * all states beside and below them. */
#ifndef PLOT_H
#define PLOT_H

#include "figure.h"
#include "kinds.h"
#include "record.h"

/* Room for a name and for a remark as they are shown. */
enum { SHOWN_ROOM = SPELLED_MOST + 12, REMARK_SHOWN_ROOM = REMARK_SPELLED_MOST + 12 };

/* A part of the page. */
typedef struct {
    double x, y, w, h;
} box;

/* A state of the sheet; `place` is where its mark stands on the page. */
typedef struct {
    state s;
    unsigned number;       /* its place in the sheet, from 1 */
    char name[SHOWN_ROOM]; /* as text, or spelled where it is none */
    char remark[REMARK_SHOWN_ROOM];
    eas_mark mark;
    int64_t value; /* of the answer, in the units of its quantity */
    double z;
    bool fitted, joined;
    point place;
} item;

typedef struct {
    double low, high;
    bool logarithmic;
} axis;

typedef struct {
    const kind_row *kind;
    unsigned points;
    axis up; /* in the wanted quantity's SI unit */
    double top, bottom;
    colour ink;
} panel;

/* Steps of the fits, in percent; both are 0 where there are none. */
typedef struct {
    unsigned count;
    double least, most;
} steps;

/* Which states of the sheet are drawn: those with these letters in their names, from one density to another, in kg/m³.
 */
typedef struct {
    const char *letters;
    double from, to;
} choice;

typedef struct {
    const char *title;
    choice wanted;
    bool no_list;
    bool paged; /* the list does not fit beside the panels, and is drawn as pages of A4 */
    item *items;
    unsigned of;                     /* states of the sheet */
    unsigned count, blanks, remarks; /* states that are drawn, those without a point, those with a remark */
    axis across;                     /* log10 of the density ratio */
    panel panels[KIND_COUNT];
    unsigned panel_count;
    double list_top, plot_bottom, width, height;
    unsigned pages;
} chart;

/* The page: its largest and least width, the panels' left and right ends, and where the list beside them begins, lower
 * where the legend is long. */
enum {
    PAGE_WIDTH = 1600,
    PAGE_LEAST = 1380,
    LEFT = 84,
    RIGHT = 1010,
    LIST_LEFT = 1040,
    LIST_TOP = 140,
    PAGE_EDGE = 24,
    REMARK_SIZE = 9,    /* of letters */
    SHEET_WIDTH = 1380, /* of a page of A4, which lies on its side */
    SHEET_HEIGHT = 976
};

/* At most so many curves of constant Z go through a band. */
enum { CURVES_MOST = 8 };

extern const colour black, dark, grey, light;

/* A state's place on the axes, its value by the answer: a mark of a pressure has whole pascals alone. */
double across_of(const item *it);
double up_of(const item *it, const kind_row *kind);
const char *value_text(const item *it, const kind_row *kind);
bool is_point_of(const item *it, const kind_row *kind);

/* A value's place on the page. */
double page_x(const chart *c, double across);
double page_y(const panel *p, double value);

/* plot_axes.c: ranges that follow the data, what stands behind the marks, and the names of the curves between them. */
void fit_axes(chart *c);
void draw_ruler(figure *f, const chart *c, double top);
void draw_panel(figure *f, const chart *c, const panel *p);
void label_curves(figure *f, const chart *c, const panel *p);

/* plot_ticks.c: the grid, with numbers along it. */
void draw_grid(figure *f, const chart *c, const panel *p);

/* The library's value at (y, z) in its SI unit, or 0 where it is refused. */
double value_at(const panel *p, double y, double z);

/* The Z at which one piece of a band, or its perfect gas, ends and the next begins; returns how many. */
int step_ends(const panel *p, int band, int32_t ends[CURVES_MOST]);

/* plot_steps.c: steps of the fits, between neighbours of the sheet and across the curves. */
extern const colour step_ink;
steps mark_steps(figure *f, const chart *c, const panel *p);
steps curve_steps(const chart *c, const panel *p);

/* plot_marks.c: what no label may cover is kept clear; marks have names where all find room, else numbers. */
void clear_page(void);
void keep_clear(box b);
bool is_free(const panel *p, box b);
void place_marks(chart *c, const panel *p);
void draw_marks(figure *f, const chart *c, const panel *p);
void draw_shape(figure *f, point at, colour ink, double size, const item *it);

/* plot_list.c: lays the list out, which sets the page's height, or the number of pages, and draws it. False where it
 * does not fit beside the panels. */
bool lay_out_list(chart *c);
void draw_list(figure *f, const chart *c);

/* plot_page.c: what stands around the panels, and the pages. */
void lay_out(chart *c, bool in_pages);
int draw_chart(chart *c, const char *path);

#endif
