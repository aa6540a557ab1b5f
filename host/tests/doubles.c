/* TGAS1's temperature and pressure and TGAS2's entropy in C doubles, compared with the library.
 *
 * doubles [seed [count]]. The doubles take their own logarithms by libm; piece and strip are those of the answer's
 * carried logarithms, so that a state next to an edge is compared on one side of it.
 *
 * Why a temperature's logarithm may differ. Free answer three puts T less than 2 millionths from G, and demand 3 puts G
 * within 0.4 millionths, 4,000 units of 10^-10, of the exact fit at the carried Y and Z. X and Y are each less than
 * 1 millionth from the true logarithms. So the difference is below 2.4 + |F_X| + |F_Y| millionths, F_X and F_Y being
 * the fit's slopes in X and Y, and the relative difference of T is below that times ln 10. In the same way an entropy
 * differs by less than 3 units of 0.0001 and one millionth of each slope. Every state is held to the bound at its own
 * slopes, with one part in fifty for their change and the doubles' rounding.
 *
 * In a strip each edge's temperature obeys the first two sentences at the edge's Y, which is no logarithm that was
 * taken, and the carried Z. The line is a mean of the two, so that it keeps their relative difference, and it is
 * rounded down by less than a microkelvin. With F the logarithm of the joined temperature over X and Y the bound is the
 * same, and a microkelvin more.
 *
 * A pressure's gamma is within 100,000 units of the exact fit. The pressure itself is (gamma - 1) E R by the doubles'
 * own logarithms, so that gamma may differ by 10^-5 and one millionth of each of its slopes, and the pressure by that
 * part of gamma - 1 beyond a micropascal, or two in a strip. There E and R are the state's own at both edges. TGAS1
 * itself moves the density to the edge, R = 10**Y R0, and joins pressures of two densities; by design the library does
 * not.
 *
 * Every carried fit, G or gamma, is also compared with the doubles' at the carried logarithms, in a strip at each edge:
 * there they differ by what demand 3 allows; the doubles' rounding is far below a unit.
 *
 * The constants are above the bound of every accepted state: a temperature's slopes come to 2.6 at most, but to 11 at
 * label 430, where the bound reaches 3.2e-5, and to 22 in the strip of the upper density edge, where it reaches 5.7e-5
 * next to refusal 13; the bound of an entropy is largest in a join, 3.8e-6. The output lists the largest bound met. */
#include <inttypes.h>
#include <math.h>
#include <stdio.h>
#include <stdlib.h>

#include "reference/answer.h"
#include "states.h"
#include "tally.h"

enum { DOUBLES_PART = 44 };

/* Places in the list of groups: the perfect gas, entropies by band, as a perfect gas and joined, then for each fitted
 * property its joins and its pieces. */
enum { PERFECT_GROUP, ENTROPY_GROUP, FITTED_GROUP = ENTROPY_GROUP + BANDS + 2, FITTED_GROUPS = 1 + BANDS * PIECES };
enum { GROUPS = FITTED_GROUP + FITTED * FITTED_GROUPS };

static const double TEMPERATURE_BOUND = 3.3e-5, JOINED_BOUND = 5.8e-5, ENTROPY_BOUND = 5e-6;
static const double PRESSURE_BOUND = 2e-4;
static const double FIT_DISTANCE[FITTED] = {[TEMPERATURE] = 4e-7, [PRESSURE] = 1e-5};
static const double LN_TEN = 2.302585092994046, SLACK = 1.02, STEP = 1e-7;

typedef struct {
    int weighed;
    double sign, kept; /* of the exponential below the fraction's line; 0 where nothing keeps the exponent */
    double a[BICUBIC_TERMS], b[BICUBIC_TERMS], exponent[EXPONENT_TERMS];
} double_piece;

typedef struct {
    char name[32];
    uint64_t count;
    double largest, bound, steepest;
} group;

static double_piece pieces[FITTED][BANDS][PIECES];
static double entropy_rows[BANDS][BICUBIC_TERMS];
static group groups[GROUPS];
static uint64_t pressures;
static double farthest[FITTED];

/* A numeral as a double; 0 where there is none. */
static double numeral(const char *text) {
    return text == NULL ? 0 : strtod(text, NULL);
}

static void read_piece(double_piece *to, const printed_piece *from) {
    to->weighed = from->b[0] != NULL;
    to->sign = from->minus ? -1 : 1;
    to->kept = numeral(from->kept);
    for (int j = 0; j < BICUBIC_TERMS; j++) {
        to->a[j] = numeral(from->a[j]);
        to->b[j] = numeral(from->b[j]);
    }
    for (int j = 0; j < EXPONENT_TERMS; j++)
        to->exponent[j] = numeral(from->exponent[j]);
}

static void read_numerals(void) {
    for (int band = 0; band < BANDS; band++) {
        for (int i = 0; i < FITTED * PIECES; i++)
            read_piece(&pieces[i / PIECES][band][i % PIECES], &printed_pieces[i / PIECES][band][i % PIECES]);
        for (int j = 0; j < BICUBIC_TERMS; j++)
            entropy_rows[band][j] = numeral(printed_entropy[band][j]);
    }
}

/* GAS1 + GAS2 + GAS3 + GAS4 */
static double cubic(const double *c, double y, double z) {
    double gas1 = c[0] + c[1] * y;
    double gas2 = (c[2] + c[3] * y) * z;
    double gas3 = (c[4] + c[5] * z + c[6] * y) * y * y;
    double gas4 = (c[7] + c[8] * y + c[9] * z) * z * z;
    return gas1 + gas2 + gas3 + gas4;
}

/* TNON of TGAS1, labels 310 to 440, or GAMM, labels 90 to 240 */
static double fit_of(const double_piece *p, double y, double z) {
    double value = cubic(p->a, y, z);
    if (!p->weighed)
        return value;
    const double *c = p->exponent;
    double gas9 = c[0] + c[1] * y + c[2] * z + c[3] * y * z;
    if (p->kept != 0)
        gas9 = fmax(fmin(gas9, p->kept), -p->kept);
    return value + cubic(p->b, y, z) / (1.0 + p->sign * exp(gas9));
}

/* The straight line of a strip */
static double straight(const density_strip *strip, double y, double low, double high) {
    double lower = (double)strip->lower * 1e-6, upper = (double)strip->upper * 1e-6;
    return low + (high - low) / (upper - lower) * (y - lower);
}

/* TNON or GAMM at (y, z), by the piece that whole logarithms choose */
static double piece_fit(fitted_property of, int64_t chosen_y, int64_t chosen_z, double y, double z) {
    return fit_of(&pieces[of][band_of(chosen_y)][piece_place(of, chosen_y, chosen_z)], y, z);
}

/* T of TGAS1 above the perfect gas, or GAMM */
static double piece_value(fitted_property of, int64_t chosen_y, int64_t chosen_z, double y, double z) {
    double fit = piece_fit(of, chosen_y, chosen_z, y, z);
    return of == TEMPERATURE ? 273.15 * pow(10.0, fit) : fit;
}

/* The same with its joins, at the side that the answer's own logarithms choose. With one E and one R for both edges the
 * line between two pressures is that between two gammas. */
static double joined_value(fitted_property of, const eas_answer *a, double y, double z) {
    density_strip strip;
    if (!strip_of(a->y, &strip))
        return piece_value(of, a->y, a->z, y, z);
    double low = piece_value(of, strip.lower, a->z, (double)strip.lower * 1e-6, z);
    double high = piece_value(of, strip.upper, a->z, (double)strip.upper * 1e-6, z);
    return straight(&strip, y, low, high);
}

/* S of TGAS2 in one band, labels 80 to 120 */
static double band_entropy(density_band band, int perfect, double y, double z) {
    if (perfect)
        return 6779.2004 + (2.5 * (z - 0.4) - y) * 287.06 * 2.302585;
    return 287.06 * cubic(entropy_rows[band], y, z);
}

/* S of TGAS2 with its joins, at the side that the answer's own logarithms choose */
static double joined_entropy(const eas_answer *a, double y, double z) {
    density_strip strip;
    int perfect = a->z <= ENTROPY_PERFECT_LIMIT;
    if (!strip_of(a->y, &strip))
        return band_entropy(band_of(a->y), perfect, y, z);
    double low = band_entropy(band_of(strip.lower), perfect, (double)strip.lower * 1e-6, z);
    double high = band_entropy(band_of(strip.upper), perfect, (double)strip.upper * 1e-6, z);
    return straight(&strip, y, low, high);
}

static void note(int index, const char *name, int label, double difference, double bound, double steep) {
    group *g = &groups[index];
    g->count++;
    if (label == 0)
        snprintf(g->name, sizeof g->name, "%s", name);
    else
        snprintf(g->name, sizeof g->name, "%s %d", name, label);
    g->largest = fmax(g->largest, difference);
    g->bound = fmax(g->bound, bound);
    g->steepest = fmax(g->steepest, steep);
}

static void show(const air_state *s, const eas_answer *a, double expected) {
    tally_note("kind %u first %" PRIu64 " second %" PRIu64 ", in doubles %.17g", s->kind, s->first, s->second,
               expected);
    tally_answer("got", a);
}

/* Notes a fitted state in its group. */
static void note_fit(fitted_property of, const eas_answer *a, double difference, double bound, double steep) {
    static const char *const joined[] = {"temperature, joined", "pressure, joined"};
    static const char *const single[] = {"temperature, label", "pressure, label"};
    density_strip strip;
    int first = FITTED_GROUP + (int)of * FITTED_GROUPS, band = (int)band_of(a->y);
    if (strip_of(a->y, &strip))
        note(first, joined[of], 0, difference, bound, steep);
    else
        note(first + 1 + band * PIECES + piece_place(of, a->y, a->z), single[of], piece_at(of, a->y, a->z)->label,
             difference, bound, steep);
}

/* Whether an answer is joined; its carried fits are compared with the doubles' at their places. */
static bool compare_carried(fitted_property of, const air_state *s, const eas_answer *a) {
    density_strip strip = {a->y, a->y};
    bool joined = strip_of(a->y, &strip);
    for (int i = 0; i < 1 + joined; i++) {
        int64_t y = i == 0 ? strip.lower : strip.upper;
        double fit = piece_fit(of, y, a->z, (double)y * 1e-6, (double)a->z * 1e-6);
        double difference = fabs((double)(i == 0 ? a->low : a->high).fit * 1e-10 - fit);
        farthest[of] = fmax(farthest[of], difference);
        if (!tally_check(difference <= FIT_DISTANCE[of], "fit off by %.3g at Y %" PRId64, difference, y))
            show(s, a, fit);
    }
    return joined;
}

static void compare_temperature(const air_state *s, const eas_answer *a) {
    bool joined = compare_carried(TEMPERATURE, s, a);
    double y = log10((double)s->second / (double)D0), z = log10((double)s->first / (double)P0) - y;
    double got = (double)a->value * 1e-6, kelvin = joined_value(TEMPERATURE, a, y, z);
    double per = 2 * STEP * LN_TEN * kelvin;
    double by_x = joined_value(TEMPERATURE, a, y, z + STEP) - joined_value(TEMPERATURE, a, y, z - STEP);
    double by_y = joined_value(TEMPERATURE, a, y + STEP, z - STEP) - joined_value(TEMPERATURE, a, y - STEP, z + STEP);
    double steep = (fabs(by_x) + fabs(by_y)) / per;
    double bound = SLACK * LN_TEN * (2e-6 + FIT_DISTANCE[TEMPERATURE] + 1e-6 * steep) + (joined ? 1e-6 / kelvin : 0);
    double difference = fabs(got - kelvin) / kelvin;
    note_fit(TEMPERATURE, a, difference, bound, steep);
    if (!tally_check(difference <= bound && bound <= (joined ? JOINED_BOUND : TEMPERATURE_BOUND),
                     "temperature off by %.3g, bound %.3g", difference, bound))
        show(s, a, kelvin);
}

static void compare_pressure(const air_state *s, const eas_answer *a) {
    bool joined = compare_carried(PRESSURE, s, a);
    double y = log10((double)s->second / (double)D0), z = log10((double)s->first / (double)E0);
    double gamma = joined_value(PRESSURE, a, y, z), e = (double)s->first * 1e-3, r = (double)s->second * 1e-11;
    double pressure = (gamma - 1) * e * r, got = (double)a->value * 1e-6;
    double by_y = joined_value(PRESSURE, a, y + STEP, z) - joined_value(PRESSURE, a, y - STEP, z);
    double by_z = joined_value(PRESSURE, a, y, z + STEP) - joined_value(PRESSURE, a, y, z - STEP);
    double steep = (fabs(by_y) + fabs(by_z)) / (2 * STEP);
    double bound = SLACK * (FIT_DISTANCE[PRESSURE] + 1e-6 * steep) / (gamma - 1);
    double rounding = (joined ? 2e-6 : 1e-6) / pressure;
    double difference = fmax(fabs(got - pressure) / pressure - rounding, 0);
    pressures++;
    note_fit(PRESSURE, a, difference, bound, steep);
    if (!tally_check(difference <= bound && bound <= PRESSURE_BOUND, "pressure off by %.3g, bound %.3g", difference,
                     bound))
        show(s, a, pressure);
}

static void compare_perfect(const air_state *s, const eas_answer *a) {
    double kelvin = (double)s->first * 1e5 / (287.06 * (double)s->second), bound = 1e-6 / kelvin + 1e-12;
    double difference = fabs((double)a->value * 1e-6 - kelvin) / kelvin;
    note(PERFECT_GROUP, "temperature, perfect gas", 0, difference, bound, 0);
    if (!tally_check(difference <= bound, "temperature off by %.3g, bound %.3g", difference, bound))
        show(s, a, kelvin);
}

static void compare_entropy(const air_state *s, const eas_answer *a) {
    static const char *const names[] = {"entropy, low", "entropy, middle", "entropy, high"};
    double y = log10((double)s->second / (double)D0), z = log10((double)s->first / (double)E0);
    double expected = joined_entropy(a, y, z), got = (double)a->value * 1e-4;
    double by_y = (joined_entropy(a, y + STEP, z) - joined_entropy(a, y - STEP, z)) / (2 * STEP);
    double by_z = (joined_entropy(a, y, z + STEP) - joined_entropy(a, y, z - STEP)) / (2 * STEP);
    double steep = fabs(by_y) + fabs(by_z), bound = SLACK * (3e-4 + 1e-6 * steep) / expected;
    double difference = fabs(got - expected) / expected;
    density_strip strip;
    int joined = strip_of(a->y, &strip), band = (int)band_of(a->y);
    if (joined)
        note(ENTROPY_GROUP + 4, "entropy, joined", 0, difference, bound, steep);
    else if (a->z <= ENTROPY_PERFECT_LIMIT)
        note(ENTROPY_GROUP + 3, "entropy, perfect gas", 0, difference, bound, steep);
    else
        note(ENTROPY_GROUP + band, names[band], 0, difference, bound, steep);
    if (!tally_check(difference <= bound && bound <= ENTROPY_BOUND, "entropy off by %.3g, bound %.3g", difference,
                     bound))
        show(s, a, expected);
}

static void compare(const air_state *s) {
    eas_answer a = eas_evaluate(s->kind, s->first, s->second);
    if (a.number != 0)
        return;
    if (a.letter == 'S')
        compare_entropy(s, &a);
    else if (a.letter == 'P')
        compare_pressure(s, &a);
    else if (a.z > PERFECT_LIMIT)
        compare_temperature(s, &a);
    else
        compare_perfect(s, &a);
}

/* All but the groups of a property's places at which no band has a piece; these stand behind its first group. */
static bool exists(int index) {
    int i = index - FITTED_GROUP, behind = i % FITTED_GROUPS;
    if (behind <= 0)
        return true;
    return printed_pieces[i / FITTED_GROUPS][(behind - 1) / PIECES][(behind - 1) % PIECES].label != 0;
}

static void print_groups(void) {
    printf("  relative differences; constants: temperature %.2g, joined %.2g, entropy %.1g, pressure %.1g\n",
           TEMPERATURE_BOUND, JOINED_BOUND, ENTROPY_BOUND, PRESSURE_BOUND);
    printf("  %-26s %9s %12s %14s %10s\n", "piece", "states", "largest", "largest bound", "slopes");
    for (int i = 0; i < GROUPS; i++) {
        const group *g = &groups[i];
        if (!exists(i) || !tally_check(g->count > 0, "no state in group %d", i))
            continue;
        printf("  %-26s %9" PRIu64 " %12.3g %14.3g %10.3g\n", g->name, g->count, g->largest, g->bound, g->steepest);
    }
    for (int of = 0; of < FITTED; of++)
        printf("  %s at its carried logarithms: off by %.3g at most, %.1g allowed\n", of == TEMPERATURE ? "G" : "gamma",
               farthest[of], FIT_DISTANCE[of]);
}

int main(int count, char **arguments) {
    uint64_t seed = count > 1 ? strtoull(arguments[1], NULL, 10) : 20260101;
    uint64_t cases = count > 2 ? strtoull(arguments[2], NULL, 10) : 800000;
    size_t edges;
    tally_start("doubles", seed);
    read_numerals();
    const air_state *edge = edge_states(&edges);
    for (size_t i = 0; i < edges; i++) {
        tally_case("edge state", i);
        compare(&edge[i]);
    }
    for (uint64_t i = 0; i < cases; i++) {
        random_source r = random_case(seed, DOUBLES_PART, i);
        air_state s = random_state(&r);
        tally_case("random state", i);
        compare(&s);
    }
    tally_case("groups", 0);
    print_groups();
    tally_check(pressures >= cases / 4, "%" PRIu64 " pressures, fewer than a fourth of %" PRIu64, pressures, cases);
    return tally_end();
}
