/* A slow expansion: Y goes through both strips in single millionths at constant Z, from some hundred below to some
 * hundred above, at a Z of every pair of pieces, at the first that is fitted and next to the first that is refused.
 *
 * Temperature. Inside a strip and at its edges every step must be that of the straight line between the temperatures at
 * the edges, which are worked out alone there, rounded down or up. No two neighbours may differ by more than the step
 * of that line and what the free answers leave. Free answer three puts the logarithm of T less than 2 millionths from
 * G, so that two temperatures may part by 4 millionths; G itself moves by less than 1 millionth from one Y to the next.
 * These 5 millionths of a logarithm are 11.6 parts per million of T. The line of a walk is at most 50.5 parts per
 * million of T a millionth of Y: it falls by a third of T over the strip of the upper density edge, next to refusal 13.
 *
 * Pressure. It moves with the density as well, and the library chooses logarithms of its own, so that what is followed
 * is the pressure over density and energy: gamma - 1. Inside a strip each edge has the gamma and the weight that are
 * worked out alone there, and its pressure is exactly that gamma's with the state's own density and energy; the value
 * is on the line between these two. Gamma moves by less than 1 millionth from one Y to the next, which is 11.2 parts
 * per million where gamma - 1 is above 0.09, as it is in the strips; two micropascal are left for the roundings. */
#include <inttypes.h>
#include <math.h>
#include <stdio.h>

#include "carried.h"
#include "reference/answer.h"
#include "reference/pressure.h"
#include "tally.h"

enum { OUTSIDE = 300, WIDEST = 50000, MOST_WALKS = MOST_PAIRS + 2 };

/* In parts per million: what may part neighbours beside the line, and the steepest line. */
static const double left_free[FITTED] = {[TEMPERATURE] = 11.6, [PRESSURE] = 1.2};
static const double steepest[FITTED] = {[TEMPERATURE] = 50.5, [PRESSURE] = 0.8};

/* In units of 10^-10: how far the fit moves from one Y to the next outside the strips. */
static const int64_t moves[FITTED] = {[TEMPERATURE] = 10000, [PRESSURE] = 1000};

/* The states of a walk and their answers; `from` is the first Y. */
typedef struct {
    fitted_property of;
    const density_strip *strip;
    int64_t z, from;
    int count;
    air_state states[WIDEST + 2 * OUTSIDE + 1];
    eas_answer answers[WIDEST + 2 * OUTSIDE + 1];
} walk;

static walk walked;

static const eas_answer *at(int64_t y) {
    return &walked.answers[y - walked.from];
}

/* Walks through a strip; true where every Y has its state and none is refused. */
static bool take_walk(fitted_property of, const density_strip *strip, int64_t z) {
    walked.of = of;
    walked.strip = strip;
    walked.z = z;
    walked.from = strip->lower - OUTSIDE;
    walked.count = (int)(strip->upper + OUTSIDE - walked.from) + 1;
    for (int i = 0; i < walked.count; i++) {
        tally_case("Y from below", (uint64_t)i);
        bool found = find_state(of, walked.from + i, z, &walked.states[i], &walked.answers[i]);
        if (!tally_check(found && walked.answers[i].number == 0, "no accepted state at Y %" PRId64 ", Z %" PRId64,
                         walked.from + i, z))
            return false;
    }
    return true;
}

/* Whether a join carries an edge as it is worked out alone, where the free answers would let it choose again; an edge's
 * pressure is that of the state's own density and energy. */
static bool same_edge(const eas_edge *edge, const eas_answer *alone, const air_state *state) {
    wide value = walked.of == TEMPERATURE ? alone->value : pressure_value(state->first, state->second, alone->low.fit);
    return edge->fit == alone->low.fit && edge->weight == alone->low.weight && edge->value == value;
}

static void check_joins(void) {
    const density_strip *strip = walked.strip;
    for (int64_t y = strip->lower + 1; y < strip->upper; y++) {
        const eas_answer *a = at(y);
        const air_state *state = &walked.states[y - walked.from];
        tally_case("joins", (uint64_t)(y - strip->lower));
        tally_check(same_edge(&a->low, at(strip->lower), state) && same_edge(&a->high, at(strip->upper), state),
                    "edges carried at Y %" PRId64 ", Z %" PRId64, y, walked.z);
        tally_check(a->value == straight_line(strip, y, a->low.value, a->high.value),
                    "value at Y %" PRId64 ", Z %" PRId64, y, walked.z);
    }
}

/* Every step of a temperature's line. */
static void check_steps(void) {
    const density_strip *strip = walked.strip;
    wide rise = at(strip->upper)->value - at(strip->lower)->value, width = strip->upper - strip->lower;
    int64_t down = (int64_t)floor_divide(rise, width), up = (int64_t)-floor_divide(-rise, width);
    for (int64_t y = strip->lower; y < strip->upper; y++) {
        tally_case("Y in a strip", (uint64_t)(y - strip->lower));
        int64_t step = at(y + 1)->value - at(y)->value;
        tally_check(step == down || step == up, "step %" PRId64 " at Y %" PRId64 ", Z %" PRId64 ": line %" PRId64, step,
                    y, walked.z, down);
    }
}

/* A temperature, or a pressure over density and energy. */
static double followed(int64_t y) {
    const air_state *s = &walked.states[y - walked.from];
    double value = (double)at(y)->value;
    return walked.of == TEMPERATURE ? value : value / ((double)s->first * (double)s->second);
}

/* How much two values differ, in parts per million of the lower one. */
static double parts(double a, double b) {
    return 1e6 * fabs(a - b) / fmin(a, b);
}

static void check_slope(int64_t y) {
    int64_t moved = at(y + 1)->low.fit - at(y)->low.fit;
    if (y < walked.strip->lower || y >= walked.strip->upper)
        tally_check(moved > -moves[walked.of] && moved < moves[walked.of],
                    "the fit moves by %" PRId64 " at Y %" PRId64 ", Z %" PRId64, moved, y, walked.z);
}

/* The step of the line, and no neighbours farther apart than it and what is left free; prints the largest. */
static void check_neighbours(double unjoined) {
    const density_strip *strip = walked.strip;
    double width = (double)(strip->upper - strip->lower), free = left_free[walked.of], largest = 0;
    double line = parts(followed(strip->lower), followed(strip->upper)) / width;
    int64_t where = walked.from;
    for (int64_t y = walked.from; y + 1 < walked.from + walked.count; y++) {
        tally_case("neighbours", (uint64_t)(y - walked.from));
        double rounding = walked.of == TEMPERATURE ? 0 : 2e6 / (double)at(y)->value;
        double apart = fmax(parts(followed(y), followed(y + 1)) - rounding, 0);
        tally_check(apart <= line + free, "%.2f ppm at Y %" PRId64 ", Z %" PRId64, apart, y, walked.z);
        check_slope(y);
        if (apart > largest) {
            largest = apart;
            where = y;
        }
    }
    tally_check(line <= steepest[walked.of], "line of %.2f ppm at Z %" PRId64, line, walked.z);
    printf("  %3d and %3d %9" PRId64 " %9.3f %12.2f %12" PRId64 " %16.0f\n",
           piece_at(walked.of, strip->lower, walked.z)->label, piece_at(walked.of, strip->upper, walked.z)->label,
           walked.z, line, largest, where, unjoined);
}

/* Of the fit by the nearest weight: what is followed, but for its unit. */
static double value_near(fitted_property of, int64_t y, int64_t z) {
    double fit = (double)fit_near(of, y, z) * 1e-10;
    return of == TEMPERATURE ? pow(10.0, fit) : fit - 1;
}

static bool both_within(const density_strip *strip, int64_t z) {
    return fit_near(TEMPERATURE, strip->lower, z) <= HIGHEST_FIT &&
           fit_near(TEMPERATURE, strip->upper, z) <= HIGHEST_FIT;
}

/* The Z of the walks through a strip. The last is the largest that is not refused; that of a temperature keeps a little
 * away from refusal 13, which the choice of W may move. */
static int walks_of(fitted_property of, const density_strip *strip, int64_t zs[MOST_WALKS]) {
    int64_t ends[MOST_PAIRS], start = fit_start(of);
    int count = pair_ends(of, strip, ends);
    zs[0] = start + 1;
    for (int i = 0; i < count; i++) {
        zs[i + 1] = start + (ends[i] - start) / 4;
        start = ends[i];
    }
    while (of == TEMPERATURE && !both_within(strip, start))
        start--;
    zs[count + 1] = of == TEMPERATURE ? start - 10 : start;
    return count + 2;
}

/* All walks of a property; returns the largest step that the density edge would have without a join. */
static double cross(fitted_property of) {
    double largest = 0;
    for (int i = 0; i < STRIPS; i++) {
        const density_strip *strip = &density_strips[i];
        int64_t zs[MOST_WALKS], edge = (strip->lower + strip->upper) / 2;
        int count = walks_of(of, strip, zs);
        for (int j = 0; j < count; j++) {
            double unjoined = parts(value_near(of, edge, zs[j]), value_near(of, edge + 1, zs[j]));
            largest = fmax(largest, unjoined);
            if (!take_walk(of, strip, zs[j]))
                continue;
            check_joins();
            if (of == TEMPERATURE)
                check_steps();
            check_neighbours(unjoined);
        }
    }
    return largest;
}

int main(void) {
    static const char *const followed_words[] = {"temperature", "pressure over density and energy"};
    tally_start("crossing", 0);
    for (int of = 0; of < FITTED; of++) {
        printf("  %s: parts per million from one millionth of Y to the next, and at the density edge without a join\n",
               followed_words[of]);
        printf("  %-11s %9s %9s %12s %12s %16s\n", "labels", "Z", "line", "largest", "at Y", "without a join");
        tally_check(cross((fitted_property)of) > 100 * (steepest[of] + left_free[of]), "a join would not be seen");
    }
    return tally_end();
}
