/* Steps of the report's fits: where one piece ends and the next begins, a value steps. Between neighbours of a sheet
 * the step is marked, and the legend says how large the steps are. */
#include <math.h>

#include "limits.h"
#include "plot.h"

/* Neighbours stand next to each other in the sheet, are of one kind and are nearer than this in density and in Z. */
static const double NEAR = 0.1;

/* How far from the end of a piece its two sides are taken, and at how many densities. */
static const double ASIDE = 2e-6;
enum { PLACES = 60 };

const colour step_ink = {0.56, 0.27, 0.68};

static void widen_steps(steps *s, double percent) {
    s->least = s->count == 0 ? percent : fmin(s->least, percent);
    s->most = s->count == 0 ? percent : fmax(s->most, percent);
    s->count++;
}

/* The step across an end, in percent; not finite where either side is refused or 0. */
static double percent_at(const panel *p, double y, double end) {
    double below = value_at(p, y, end - ASIDE), above = value_at(p, y, end + ASIDE);
    return below > 0 && above > 0 ? 100 * (above / below - 1) : HUGE_VAL;
}

/* The step between two states in percent; not finite where there is none. */
static double step_between(const panel *p, const item *a, const item *b) {
    double low = fmin(a->z, b->z), high = fmax(a->z, b->z), y = (across_of(a) + across_of(b)) / 2;
    int32_t ends[CURVES_MOST];
    if (high - low >= NEAR || fabs(across_of(a) - across_of(b)) >= NEAR)
        return HUGE_VAL;
    int count = step_ends(p, density_band(llround(1e6 * y)), ends);
    for (int i = 0; i < count; i++)
        if (low <= MILLIONTHS(ends[i]) && MILLIONTHS(ends[i]) < high)
            return percent_at(p, y, MILLIONTHS(ends[i]));
    return HUGE_VAL;
}

/* Marks the steps between neighbours of a panel, where there is a figure, and returns them. */
steps mark_steps(figure *f, const chart *c, const panel *p) {
    steps found = {0};
    for (unsigned i = 0; i + 1 < c->count; i++) {
        const item *a = &c->items[i], *b = a + 1;
        bool are_neighbours = b->number == a->number + 1 && is_point_of(a, p->kind) && is_point_of(b, p->kind);
        double percent = are_neighbours ? step_between(p, a, b) : HUGE_VAL;
        if (!isfinite(percent))
            continue;
        widen_steps(&found, percent);
        if (f)
            draw_line(f, a->place.x, a->place.y, b->place.x, b->place.y, (pen){step_ink, 3, false});
    }
    return found;
}

/* The steps across the curves of a panel, as far as it shows them. */
steps curve_steps(const chart *c, const panel *p) {
    steps found = {0};
    for (int i = 0; i <= PLACES; i++) {
        double y = c->across.low + (c->across.high - c->across.low) * i / PLACES;
        int32_t ends[CURVES_MOST];
        int count =
            y < MILLIONTHS(LEAST_Y) || y > MILLIONTHS(MOST_Y) ? 0 : step_ends(p, density_band(llround(1e6 * y)), ends);
        for (int k = 0; k < count; k++) {
            double value = value_at(p, y, MILLIONTHS(ends[k]) - ASIDE), percent = percent_at(p, y, MILLIONTHS(ends[k]));
            if (value > p->up.low && value < p->up.high && isfinite(percent))
                widen_steps(&found, percent);
        }
    }
    return found;
}
