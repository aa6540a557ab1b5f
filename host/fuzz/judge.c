#include "judge.h"

#include <math.h>

#include "guard.h"
#include "plain/tgas.h"

/* Doubles decide what they can: a logarithm by free answer one with this much added for libm's own error. */
static const double SLACK = 1e-5;

static void judge_logarithm(int64_t taken, uint64_t value, uint64_t standard) {
    double exact = 1e6 * log10((double)value / (double)standard);
    require(fabs((double)taken - exact) < 1 + SLACK, "a taken logarithm lies within a millionth");
}

static void judge_perfect(uint64_t pressure, uint64_t density, const eas_answer *a) {
    unsigned __int128 upper = (unsigned __int128)pressure * 10000000000000u, lower = (unsigned __int128)density * 28706;
    require(a->number == 0 && (uint64_t)a->value == (uint64_t)(upper / lower), "a perfect gas's temperature");
    require(a->carries == (EAS_CARRIES_LOGS | EAS_CARRIES_X | EAS_CARRIES_VALUE), "what a perfect gas carries");
}

/* A weight is within 2 of the ideal one at the rounded exponent. Three of the exponent's products lose less than a unit
 * of 10^-10 each, the fourth, which Z multiplies, less than 3.7; the ideal weight moves by at most half of these 6.7.
 * Together that is below 5.4, and the doubles' own exponents are off by less than a hundredth. */
static const double WEIGHT_DISTANCE = 5.5;

/* A fit at a place, against the doubles there. */
static void judge_fit(const eas_edge *edge, tgas_parts parts, double fit, double distance) {
    double power = parts.weighted ? exp(parts.exponent) : 0;
    double weight = parts.weighted ? 1e10 / (parts.weighted < 0 ? 1 - power : 1 + power) : 0;
    require(fabs((double)edge->weight - weight) < WEIGHT_DISTANCE, "a fit's weight is near its ideal");
    require(parts.weighted < 0 || (edge->weight >= 0 && edge->weight <= 10000000000),
            "a fit's weight lies between none and all");
    require(fabs((double)edge->fit - 1e10 * fit) < distance, "a fit is near that of the doubles");
}

/* A property that is fitted: its fit at a place, which returns whether it is beyond its limits, its refusal, and
 * whether a value is that of a fit. */
typedef struct {
    int (*judge_place)(const eas_edge *edge, int64_t y, int64_t z);
    uint32_t refusal;
    int (*fits)(uint64_t first, uint64_t density, int64_t fit, int64_t value);
} property;

static int judge_exponent(const eas_edge *edge, int64_t at, int64_t z) {
    double y = (double)at / 1e6;
    tgas_parts parts = tgas1_parts(tgas_band(y), y, (double)z / 1e6);
    judge_fit(edge, parts, tgas1_fit(parts), 4000);
    return edge->fit < 0 || edge->fit > MOST_FIT;
}

static int judge_gamma(const eas_edge *edge, int64_t at, int64_t z) {
    double y = (double)at / 1e6;
    tgas_parts parts = tgas1_gamma_parts(tgas_band(y), y, (double)z / 1e6);
    judge_fit(edge, parts, tgas1_gamma(parts), 100000);
    return edge->fit <= BELOW_GAMMA || edge->fit >= ABOVE_GAMMA;
}

/* Free answer three, in doubles: g is the whole millionths in G. */
static int fits_temperature(uint64_t pressure, uint64_t density, int64_t fit, int64_t value) {
    double g = floor((double)fit / 1e4), taken = 1e6 * log10((double)value / (double)STANDARD_TEMPERATURE);
    (void)pressure;
    (void)density;
    return taken > g - 1 - SLACK && taken < g + 2 + SLACK;
}

/* Rounded down from the state's own energy and density. */
static int fits_pressure(uint64_t energy, uint64_t density, int64_t gamma, int64_t value) {
    unsigned __int128 product = (unsigned __int128)energy * density * (uint64_t)(gamma - 10000000000);
    return value >= 0 && (uint64_t)value == (uint64_t)(product / 1000000000000000000);
}

static const property temperature = {judge_exponent, 13, fits_temperature}, pressure = {judge_gamma, 17, fits_pressure};

static void judge_single(const property *p, uint64_t first, uint64_t density, const eas_answer *a) {
    int refused = p->judge_place(&a->low, a->y, a->z);
    require(a->number == (refused ? p->refusal : 0), "refused exactly where a fit is outside its limits");
    require(a->low.value == 0, "a single fit has no value of an edge");
    require(refused ? a->value == 0 : p->fits(first, density, a->low.fit, a->value), "a fitted value");
}

static void judge_joined(const property *p, uint64_t first, uint64_t density, const eas_answer *a, int64_t lower,
                         int64_t upper) {
    int low = p->judge_place(&a->low, lower, a->z), high = p->judge_place(&a->high, upper, a->z);
    require(a->number == (low || high ? p->refusal : 0), "refused exactly where an edge's fit is outside its limits");
    if (a->number) {
        require(a->value == 0 && a->low.value == 0 && a->high.value == 0, "a refused join has no value");
        return;
    }
    require(p->fits(first, density, a->low.fit, a->low.value) && p->fits(first, density, a->high.fit, a->high.value),
            "the values at the edges");
    __int128 width = upper - lower, rise = (__int128)(a->high.value - a->low.value) * (a->y - lower);
    __int128 rest = rise - (__int128)(a->value - a->low.value) * width;
    require(rest >= 0 && rest < width, "a join is the straight line, rounded down");
}

/* `logs` are the logarithms that the property carries. */
static void judge_fitted(const property *p, uint32_t logs, uint64_t first, uint64_t density, const eas_answer *a) {
    int64_t middle, half;
    int joined = inside_strip(a->y, &middle, &half);
    uint32_t edges = joined ? EAS_CARRIES_LOW | EAS_CARRIES_HIGH : EAS_CARRIES_LOW;
    require(a->carries == (logs | edges | (a->number ? 0u : EAS_CARRIES_VALUE)), "what a fitted state carries");
    if (joined)
        judge_joined(p, first, density, a, middle - half, middle + half);
    else
        judge_single(p, first, density, a);
}

static void judge_temperature(uint64_t given, uint64_t density, const eas_answer *a) {
    judge_logarithm(a->x, given, STANDARD_PRESSURE);
    require(a->letter == 'T' && a->z == a->x - a->y, "a temperature's Z is X - Y");
    if (a->z < LEAST_Z || a->z > MOST_Z)
        require(a->number == 12 && a->carries == (EAS_CARRIES_LOGS | EAS_CARRIES_X), "12 outside Z's limits");
    else if (a->z <= PERFECT_Z)
        judge_perfect(given, density, a);
    else
        judge_fitted(&temperature, EAS_CARRIES_LOGS | EAS_CARRIES_X, given, density, a);
}

/* The band whose limit in Z holds: in a strip that above it, which is the smaller one. */
static int limiting_band(int64_t y) {
    int64_t middle, half;
    return density_band(inside_strip(y, &middle, &half) ? middle + half : y);
}

static void judge_entropy(uint64_t energy, const eas_answer *a) {
    judge_logarithm(a->z, energy, STANDARD_ENERGY);
    require(a->letter == 'S' && a->x == 0, "an entropy has no X");
    int refused = a->z > entropy_most_z[limiting_band(a->y)];
    require(a->number == (refused ? 12u : 0u), "12 exactly where Z is above its limit");
    require(!(a->carries & (EAS_CARRIES_LOW | EAS_CARRIES_HIGH)), "an entropy carries no edges");
    if (refused)
        return;
    double exact = 1e4 * tgas2_joined((double)a->y / 1e6, (double)a->z / 1e6);
    require(fabs((double)a->value - exact) < 4, "an entropy lies within 3 units of the exact one");
}

/* No exponent of a minus transition comes near 0. */
static void judge_pressure(uint64_t energy, uint64_t density, const eas_answer *a) {
    judge_logarithm(a->z, energy, STANDARD_ENERGY);
    require(a->letter == 'P' && a->x == 0, "a pressure has no X");
    if (a->z > pressure_most_z(limiting_band(a->y)))
        require(a->number == 17 && a->carries == EAS_CARRIES_LOGS, "17 above Z's limit");
    else
        judge_fitted(&pressure, EAS_CARRIES_LOGS, energy, density, a);
}

void judge(uint8_t kind, uint64_t first, uint64_t second, const eas_answer *a) {
    uint64_t least = kind == 1 ? LEAST_PRESSURE : LEAST_ENERGY, most = kind == 1 ? MOST_PRESSURE : MOST_ENERGY;
    int known = kind >= 1 && kind <= 3;
    int first_wrong = first < least || first > most;
    int density_wrong = second < LEAST_DENSITY || second > MOST_DENSITY;
    uint32_t number = !known ? 6 : first_wrong ? 10 : density_wrong ? 11 : 0;
    if (number) {
        const eas_answer refusal = {.number = number};
        require(same_answer(a, &refusal), "a state's refusal before its logarithms");
        return;
    }
    judge_logarithm(a->y, second, STANDARD_DENSITY);
    if (kind == 1)
        judge_temperature(first, second, a);
    else if (kind == 2)
        judge_entropy(first, a);
    else
        judge_pressure(first, second, a);
}

static int same_edge(const eas_edge *a, const eas_edge *b) {
    return a->fit == b->fit && a->weight == b->weight && a->value == b->value;
}

int same_answer(const eas_answer *a, const eas_answer *b) {
    return a->number == b->number && a->letter == b->letter && a->carries == b->carries && a->x == b->x &&
           a->y == b->y && a->z == b->z && a->value == b->value && same_edge(&a->low, &b->low) &&
           same_edge(&a->high, &b->high);
}
