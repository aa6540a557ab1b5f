#include "checklist_right.h"

#include <math.h>
#include <stddef.h>

#include "reference/answer.h"
#include "reference/entropy.h"
#include "reference/pressure.h"

static const int64_t ONE = 10000000000;

/* How far from a strip a state is beside it, in millionths. */
enum { BESIDE = 10000 };

static int64_t logarithm(uint64_t over, uint64_t under) {
    return llroundl(1e6L * log10l((long double)over / (long double)under));
}

bool same_value(double a, double b) {
    return fabs(a - b) <= 1e-5 * fabs(b);
}

/* A state that is fitted. */
typedef struct {
    fitted_property of;
    uint64_t first, density;
} fitted_state;

/* The value of a fit in its SI unit. */
static double value_of(const fitted_state *s, wide fit) {
    double part = (double)fit / (double)ONE;
    if (s->of == TEMPERATURE)
        return (double)T0 / 1e6 * pow(10, part);
    return (double)s->first / 1e3 * ((double)s->density / 1e11) * (part - 1);
}

/* A fit at a place; beyond: outside the fitted range. */
typedef struct {
    bool blended, beyond;
    double weight, value, sign_lost;
} place_fit;

/* The weight with its sign lost: that of the exponent, or in a minus transition that of the exponential. */
static int64_t wrong_weight(const fit_piece *piece, int64_t y, int64_t z) {
    fit_piece plus = *piece;
    plus.minus = false;
    int64_t weight = nearest_weight(&plus, y, z);
    return piece->minus ? weight : ONE - weight;
}

static place_fit fit_by(const fitted_state *s, const fit_piece *piece, int64_t y, int64_t z) {
    int64_t weight = nearest_weight(piece, y, z);
    wide fit = fitted(piece, y, z, weight);
    return (place_fit){
        .blended = piece->weighed,
        .beyond = fit_beyond(s->of, (int64_t)fit),
        .weight = (double)weight / (double)ONE,
        .value = value_of(s, fit),
        .sign_lost = value_of(s, piece->weighed ? fitted(piece, y, z, wrong_weight(piece, y, z)) : fit),
    };
}

/* The strip that a place is in or beside; null where it is far from both. */
static const density_strip *strip_near(int64_t y) {
    for (int i = 0; i < STRIPS; i++)
        if (density_strips[i].lower - BESIDE <= y && y <= density_strips[i].upper + BESIDE)
            return &density_strips[i];
    return NULL;
}

static void find_edge(right_state *r, int64_t y) {
    const density_strip *strip = strip_near(y);
    if (r->number || !strip)
        return;
    r->edge = strip == density_strips ? LOWER_DENSITY_EDGE : UPPER_DENSITY_EDGE;
    r->side = y <= strip->lower ? THINNER : y < strip->upper ? INSIDE : DENSER;
}

/* A join goes straight between the edges of its strip; without one, both ends are the place itself. */
static void right_fit(right_state *r, const fitted_state *s, int64_t y, int64_t z) {
    density_strip strip = {y, y};
    r->fitted = true;
    r->joined = strip_of(y, &strip);
    place_fit low = fit_by(s, piece_at(s->of, strip.lower, z), strip.lower, z);
    place_fit high = fit_by(s, piece_at(s->of, strip.upper, z), strip.upper, z);
    double part = r->joined ? (double)(y - strip.lower) / (double)(strip.upper - strip.lower) : 0;
    r->blended = low.blended || high.blended;
    r->weight = low.weight;
    if (low.beyond || high.beyond) {
        r->number = s->of == TEMPERATURE ? 13 : 17;
        return;
    }
    r->value = low.value + part * (high.value - low.value);
    for (int i = 0; i < LOST_SIGNS; i++) {
        double from = i == 1 ? low.value : low.sign_lost, to = i == 0 ? high.value : high.sign_lost;
        r->sign_lost[i] = from + part * (to - from);
    }
    if (s->of == TEMPERATURE || !r->joined)
        return;
    double from = low.value * pow(10, (double)(strip.lower - y) / 1e6);
    r->end_densities = from + part * (high.value * pow(10, (double)(strip.upper - y) / 1e6) - from);
}

/* By the curves of the range below the edge and of that above it, at the state's own density. */
static void fit_one_range(right_state *r, const fitted_state *s, int64_t y, int64_t z) {
    const density_strip *strip = strip_near(y);
    r->one_range[0] = fit_by(s, piece_at(s->of, strip->lower, z), y, z).value;
    r->one_range[1] = fit_by(s, piece_at(s->of, strip->upper, z), y, z).value;
}

static right_state right_temperature(uint64_t pressure, uint64_t density) {
    const fitted_state s = {TEMPERATURE, pressure, density};
    right_state r = {0};
    int64_t y = logarithm(density, D0), z = logarithm(pressure, P0) - y;
    if (z < LOWEST_Z || z > HIGHEST_Z)
        r.number = 12;
    else if (z > PERFECT_LIMIT)
        right_fit(&r, &s, y, z);
    else
        r.value = (double)pressure * 1e7 / (28706.0 * (double)density);
    find_edge(&r, y);
    if (r.fitted && r.edge)
        fit_one_range(&r, &s, y, z);
    return r;
}

static right_state right_pressure(uint64_t energy, uint64_t density) {
    const fitted_state s = {PRESSURE, energy, density};
    right_state r = {0};
    int64_t y = logarithm(density, D0), z = logarithm(energy, E0);
    if (pressure_warned(y, z))
        r.number = 17;
    else
        right_fit(&r, &s, y, z);
    find_edge(&r, y);
    if (r.edge)
        fit_one_range(&r, &s, y, z);
    return r;
}

static right_state right_entropy(uint64_t energy, uint64_t density) {
    right_state r = {0};
    int64_t y = logarithm(density, D0), z = logarithm(energy, E0);
    if (entropy_beyond(y, z))
        r.number = 12;
    else
        r.value = (double)entropy_value(y, z) / 1e4;
    find_edge(&r, y);
    return r;
}

right_state right_of(const eas_record *record) {
    uint64_t first = record->first, density = record->second;
    if (!first_in_range(record->kind, first))
        return (right_state){.number = 10};
    if (density < D_MIN || density > D_MAX)
        return (right_state){.number = 11};
    return record->kind == TEMPERATURE_KIND ? right_temperature(first, density)
           : record->kind == ENTROPY_KIND   ? right_entropy(first, density)
                                            : right_pressure(first, density);
}
