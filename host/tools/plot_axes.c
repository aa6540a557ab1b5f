/* Ranges that follow the data; bands, strips and the curves at which a piece of the fits ends. */
#include <math.h>
#include <stdio.h>

#include "limits.h"
#include "plot.h"

enum { CURVE_STEPS = 240, RULER_HEIGHT = 14 };

/* A strip is drawn at least this wide, so that it is seen. */
static const double STRIP_LEAST = 8;

/* A curve is followed this far below its Z, where the piece that ends there still holds. */
static const double BELOW = 1e-7;

static const colour strip_ink = {0.72, 0.83, 0.97}, edge_ink = {0.45, 0.45, 0.45}, curve_ink = {0.62, 0.62, 0.62};

static const double band_end[] = {MILLIONTHS(LEAST_Y), MILLIONTHS(LOWER_EDGE), MILLIONTHS(UPPER_EDGE),
                                  MILLIONTHS(MOST_Y)};
static const double strip_half[] = {0, MILLIONTHS(LOWER_HALF), MILLIONTHS(UPPER_HALF), 0};
static const char *const band_name[] = {"low band", "middle band", "high band"};

static void include(axis *a, double value) {
    a->low = fmin(a->low, value);
    a->high = fmax(a->high, value);
}

/* Leaves room at both ends, and some range around a single value. */
static void widen(axis *a, double least, double part) {
    double room = fmax((least - (a->high - a->low)) / 2, part * (a->high - a->low));
    a->low -= room;
    a->high += room;
}

/* A value of 0 does not keep an axis from being logarithmic. */
static void fit_up(const chart *c, panel *p) {
    axis a = {HUGE_VAL, -HUGE_VAL, false};
    double least = HUGE_VAL, unit = pow(10, -(double)p->kind->wanted->decimals);
    for (unsigned i = 0; i < c->count; i++) {
        if (!is_point_of(&c->items[i], p->kind))
            continue;
        double up = up_of(&c->items[i], p->kind);
        include(&a, up);
        least = up > 0 ? fmin(least, up) : least;
    }
    a.logarithmic = a.low >= 0 && a.high > 8 * least;
    if (a.logarithmic) {
        a.low = least / 1.25;
        a.high *= 1.25;
    } else {
        widen(&a, fmax(0.02 * fabs(a.high), unit), 0.08);
    }
    p->up = a;
}

/* A band's edge that is no farther away than this is shown too. */
static void include_near_edges(axis *a) {
    const double near = 0.75;
    for (int band = 0; band < 2; band++)
        if (band_end[band + 1] > a->low - near && band_end[band + 1] < a->high + near)
            include(a, band_end[band + 1]);
}

void fit_axes(chart *c) {
    c->across = (axis){HUGE_VAL, -HUGE_VAL, false};
    for (unsigned i = 0; i < c->count; i++)
        if (!c->items[i].mark.blank)
            include(&c->across, across_of(&c->items[i]));
    if (c->across.low > c->across.high)
        c->across = (axis){MILLIONTHS(LEAST_Y), MILLIONTHS(MOST_Y), false};
    include_near_edges(&c->across);
    widen(&c->across, 1, 0.04);
    for (unsigned i = 0; i < c->panel_count; i++)
        fit_up(c, &c->panels[i]);
}

double page_x(const chart *c, double across) {
    return LEFT + (across - c->across.low) / (c->across.high - c->across.low) * (RIGHT - LEFT);
}

/* What is below a logarithmic axis stands at its end. */
double page_y(const panel *p, double value) {
    const axis *a = &p->up;
    double part =
        a->logarithmic ? log(fmax(value / a->low, 1)) / log(a->high / a->low) : (value - a->low) / (a->high - a->low);
    return p->bottom - part * (p->bottom - p->top);
}

static void draw_frame(figure *f, const panel *p) {
    const point corners[] = {{LEFT, p->top}, {RIGHT, p->top}, {RIGHT, p->bottom}, {LEFT, p->bottom}, {LEFT, p->top}};
    char title[96];
    f->stroke(f, corners, 5, (pen){dark, 1, false});
    snprintf(title, sizeof title, "%c%s, %u %s", p->kind->wanted->name[0] - 'a' + 'A', p->kind->wanted->name + 1,
             p->points, p->points == 1 ? "state" : "states");
    f->text(f, (point){LEFT, p->top - 24}, (lettering){15, p->ink, 0, false, true}, title);
    snprintf(title, sizeof title, "%s, %s", p->kind->wanted->name, p->kind->wanted->unit);
    f->text(f, (point){24, (p->top + p->bottom) / 2}, (lettering){13, dark, 0.5, true, false}, title);
    f->text(f, (point){(LEFT + RIGHT) / 2.0, p->bottom + 50}, (lettering){13, dark, 0.5, false, false},
            "log10 of density / 1.292 kg/m³; below it the density in kg/m³");
}

/* The part of the page between two places across, cut at the panel's ends; its width is 0 where nothing is left. */
static box between(const chart *c, const panel *p, double from, double to) {
    double left = fmax(page_x(c, from), LEFT), right = fmin(page_x(c, to), RIGHT);
    return (box){left, p->top, fmax(right - left, 0), p->bottom - p->top};
}

static bool is_visible(const chart *c, double across) {
    return across > c->across.low && across < c->across.high;
}

double value_at(const panel *p, double y, double z) {
    double standard =
        p->kind->letter == 'T' ? (double)STANDARD_PRESSURE * pow(10, y + z) : (double)STANDARD_ENERGY * pow(10, z);
    eas_answer a = eas_evaluate(p->kind->kind, (uint64_t)llround(standard),
                                (uint64_t)llround((double)STANDARD_DENSITY * pow(10, y)));
    return a.number ? 0 : (double)a.value * pow(10, -(double)p->kind->wanted->decimals);
}

/* A strip around the upper end of a band, at least STRIP_LEAST wide. Temperatures are joined above the end of the
 * perfect gas, so that theirs ends there. */
static void draw_strip(figure *f, const chart *c, const panel *p, int band) {
    double middle = band_end[band + 1], half = strip_half[band + 1];
    double least = STRIP_LEAST / 2 * (c->across.high - c->across.low) / (RIGHT - LEFT);
    box b = between(c, p, middle - fmax(half, least), middle + fmax(half, least));
    if (p->kind->letter == 'T')
        b.h = fmin(fmax(page_y(p, value_at(p, middle, MILLIONTHS(PERFECT_Z) - BELOW)) - p->top, 0), b.h);
    if (b.h > 0)
        fill_box(f, b.x, b.y, b.w, b.h, strip_ink);
}

static void draw_bands(figure *f, const chart *c, const panel *p) {
    for (int band = 0; band < 3; band++) {
        box b = between(c, p, band_end[band], band_end[band + 1]);
        if (b.w > text_width(band_name[band], 11, false))
            f->text(f, (point){b.x + b.w / 2, p->top - 6}, (lettering){11, grey, 0.5, false, false}, band_name[band]);
        if (band < 2 && is_visible(c, band_end[band + 1]))
            draw_strip(f, c, p, band);
    }
}

static void draw_edges(figure *f, const chart *c, const panel *p) {
    for (int band = 0; band < 2; band++) {
        double x = page_x(c, band_end[band + 1]);
        if (is_visible(c, band_end[band + 1]))
            draw_line(f, x, p->top, x, p->bottom, (pen){edge_ink, 1, false});
    }
}

/* A run of points of a curve on which Z is constant. */
typedef void use_run(figure *f, const panel *p, const point *points, size_t n, double z);

static void stroke_run(figure *f, const panel *p, const point *points, size_t n, double z) {
    (void)p;
    (void)z;
    if (n > 1)
        f->stroke(f, points, n, (pen){curve_ink, 1, true});
}

/* Names a curve at its first place with room. */
static void label_run(figure *f, const panel *p, const point *points, size_t n, double z) {
    char text[32];
    snprintf(text, sizeof text, "Z = %g", z);
    double width = text_width(text, 10, false);
    for (size_t i = 4; i + 8 < n; i += 2) {
        size_t last = i;
        while (last + 1 < n && points[last].x < points[i].x + width)
            last++;
        box b = {points[i].x, fmin(points[i].y, points[last].y) - 14, width, 11};
        if (!is_free(p, b))
            continue;
        f->text(f, (point){b.x, b.y + 10}, (lettering){10, edge_ink, 0, false, false}, text);
        keep_clear(b);
        return;
    }
}

/* A curve of constant Z over a band, without the strips where values of this Z are joined. */
static void follow_curve(figure *f, const chart *c, const panel *p, int band, double z, use_run *use) {
    bool joined = p->kind->letter != 'T' || z > MILLIONTHS(PERFECT_Z);
    double from = fmax(c->across.low, band_end[band] + (joined ? strip_half[band] + 1e-6 : 1e-6));
    double to = fmin(c->across.high, band_end[band + 1] - (joined ? strip_half[band + 1] : 0));
    point points[CURVE_STEPS + 1];
    size_t n = 0;
    for (int i = 0; from < to && i <= CURVE_STEPS; i++) {
        double y = from + (to - from) * i / CURVE_STEPS, value = value_at(p, y, z - BELOW);
        if (value > p->up.low && value < p->up.high) {
            points[n++] = (point){page_x(c, y), page_y(p, value)};
            continue;
        }
        use(f, p, points, n, z);
        n = 0;
    }
    use(f, p, points, n, z);
}

/* The largest Z of a band's fits. */
static int32_t limit_of(const panel *p, int band) {
    return p->kind->letter == 'T' ? MOST_Z : p->kind->letter == 'S' ? entropy_most_z[band] : pressure_most_z(band);
}

int step_ends(const panel *p, int band, int32_t ends[CURVES_MOST]) {
    const int32_t *pieces = p->kind->letter == 'T' ? piece_end[band] : pressure_end[band];
    int n = 0;
    if (p->kind->letter == 'S') {
        ends[n++] = PERFECT_ENTROPY_Z;
        return n;
    }
    if (p->kind->letter == 'T')
        ends[n++] = PERFECT_Z;
    for (int i = 0; pieces[i] < limit_of(p, band); i++)
        ends[n++] = pieces[i];
    return n;
}

/* The same with the limit, but for a temperature, whose window is not a curve. */
static int curve_ends(const panel *p, int band, int32_t ends[CURVES_MOST]) {
    int n = step_ends(p, band, ends);
    if (p->kind->letter != 'T')
        ends[n++] = limit_of(p, band);
    return n;
}

/* Each end of a piece and each limit in Z. */
static void follow_curves(figure *f, const chart *c, const panel *p, use_run *use) {
    for (int band = 0; band < 3; band++) {
        int32_t ends[CURVES_MOST];
        int count = curve_ends(p, band, ends);
        for (int i = 0; i < count; i++)
            follow_curve(f, c, p, band, MILLIONTHS(ends[i]), use);
    }
}

void draw_panel(figure *f, const chart *c, const panel *p) {
    draw_bands(f, c, p);
    draw_grid(f, c, p);
    draw_edges(f, c, p);
    follow_curves(f, c, p, stroke_run);
    draw_frame(f, p);
}

void label_curves(figure *f, const chart *c, const panel *p) {
    follow_curves(f, c, p, label_run);
}

/* A place across on the ruler, which has all densities of the fits. */
static double ruler_x(double across) {
    return LEFT + (across - band_end[0]) / (band_end[3] - band_end[0]) * (RIGHT - LEFT);
}

static void draw_ruler_strip(figure *f, double top, double middle, double half) {
    char text[64];
    double x = ruler_x(middle), reach = fmax(ruler_x(middle + half) - x, STRIP_LEAST / 2);
    fill_box(f, x - reach, top - 3, 2 * reach, RULER_HEIGHT + 6, strip_ink);
    snprintf(text, sizeof text, "join at %g ± %g", middle, half);
    f->text(f, (point){x, top - 6}, (lettering){10, grey, 0.5, false, false}, text);
}

/* Bands and both strips, and the part that the panels show. */
void draw_ruler(figure *f, const chart *c, double top) {
    static const colour inks[] = {{0.96, 0.94, 0.90}, {0.92, 0.95, 0.91}, {0.95, 0.92, 0.95}};
    double left = ruler_x(fmax(c->across.low, band_end[0])), right = ruler_x(fmin(c->across.high, band_end[3]));
    double upper = top - 1, lower = top + RULER_HEIGHT + 1;
    const point frame[] = {{left, upper}, {right, upper}, {right, lower}, {left, lower}, {left, upper}};
    for (int band = 0; band < 3; band++) {
        double x = ruler_x(band_end[band]), w = ruler_x(band_end[band + 1]) - x;
        fill_box(f, x, top, w, RULER_HEIGHT, inks[band]);
        f->text(f, (point){x + w / 2, top + 11}, (lettering){10, grey, 0.5, false, false}, band_name[band]);
    }
    for (int band = 0; band < 2; band++)
        draw_ruler_strip(f, top, band_end[band + 1], strip_half[band + 1]);
    f->stroke(f, frame, 5, (pen){black, 1.5, false});
    f->text(f, (point){(left + right) / 2, lower + 12}, (lettering){10, dark, 0.5, false, false}, "shown below");
}
