/* What is seen when neighbouring states are differenced: every piece with a transition is walked through its middle in
 * single millionths of Z, at four densities, and the second difference of each three neighbours is taken.
 *
 * That of a carried fit is that of the exact fit and a noise: the second difference of their distances. Each distance
 * lies between those of the weights that are allowed at its place, so that the noise is at most what the farthest of
 * these give together. Fits whose weights go up and down by the former tolerance must break that bound. The middle is
 * where the exponent is 0; in the minus transition, which has none, the walks take the least exponents.
 *
 * Of a temperature the logarithm of T is differenced too, in millionths. T belongs to the whole millionths of G, and
 * free answer three leaves it less than 2 millionths from G, so that its second difference is less than 8 from G's. */
#include <inttypes.h>
#include <math.h>
#include <stdio.h>

#include "carried.h"
#include "reference/answer.h"
#include "tally.h"

enum { WALKS = 4, STATES = 2501, DENSITIES = 64 };

/* Below it not every millionth of a temperature's X has a pressure in whole units. */
enum { LEAST_Y = -6000000 };

static const double ROUNDING = 1e-6; /* of doubles, in sums of distances */

typedef struct {
    int64_t z, fit, weight;
    place_distances distance;
    double kelvin; /* the logarithm of T less G, in millionths; 0 of a pressure */
} neighbour;

static neighbour walked[STATES];

/* The largest second differences of a piece in size, in units of 10^-10, that of T in millionths. */
typedef struct {
    uint64_t pairs, broken; /* broken: the bound, by weights that go up and down */
    double b, fit, exact, noise, by_weights[TOLERANCES], kelvin;
} piece_row;

static void raise_to(double *largest, double value) {
    *largest = fmax(*largest, fabs(value));
}

static double second(double before, double here, double after) {
    return before - 2 * here + after;
}

static bool has_middle(const fit_piece *piece, const piece_box *box, int64_t y) {
    long double z = place_of_exponent(piece, y, 0);
    return z >= (long double)box->least_z && z <= (long double)box->most_z;
}

/* Densities outside the strips at which the middle of the transition is in the piece; where it never is, all of them,
 * by a second round. */
static int walk_densities(const fit_piece *piece, const piece_box *box, int64_t ys[DENSITIES]) {
    int64_t least = box->least_y < LEAST_Y ? LEAST_Y : box->least_y;
    density_strip strip;
    int count = 0;
    for (int i = 0; i < 2 * DENSITIES && (i != DENSITIES || count == 0); i++) {
        int64_t y = least + (box->most_y - least) * (i % DENSITIES) / (DENSITIES - 1);
        if (!strip_of(y, &strip) && (i >= DENSITIES || has_middle(piece, box, y)))
            ys[count++] = y;
    }
    return count;
}

/* The first Z of a walk around the middle, or next to it within the piece. */
static int64_t walk_start(const fit_piece *piece, const piece_box *box, int64_t y) {
    int64_t start = llroundl(place_of_exponent(piece, y, 0)) - STATES / 2;
    int64_t last = box->most_z - (STATES - 1);
    return start < box->least_z ? box->least_z : start > last ? last : start;
}

/* The states of a walk at a carried Y; true where every Z has its state and none is refused. */
static bool take_walk(fitted_property of, int64_t y, int64_t start) {
    for (int i = 0; i < STATES; i++) {
        neighbour *n = &walked[i];
        air_state state;
        eas_answer a;
        tally_case("state of a walk", (uint64_t)i);
        n->z = start + i;
        if (!tally_check(find_state(of, y, n->z, &state, &a) && a.number == 0,
                         "no accepted state at Y %" PRId64 ", Z %" PRId64, y, n->z))
            return false;
        n->fit = a.low.fit;
        n->weight = a.low.weight;
        n->distance = distances_at(of, y, n->z, n->fit);
        long double logarithm = 1e6L * log10l((long double)a.value / (long double)T0);
        n->kelvin = of == TEMPERATURE ? (double)(logarithm - (long double)n->fit / 1e4L) : 0;
    }
    return true;
}

/* The noise of three neighbours lies between these for all weights within a tolerance. */
typedef struct {
    double least, most;
} noise_range;

static noise_range noise_within(const neighbour *n, int tolerance) {
    const place_distances *before = &n[-1].distance, *here = &n->distance, *after = &n[1].distance;
    return (noise_range){second(before->least[tolerance], here->most[tolerance], after->least[tolerance]),
                         second(before->most[tolerance], here->least[tolerance], after->most[tolerance])};
}

static bool is_within(noise_range range, double noise) {
    return noise >= range.least - ROUNDING && noise <= range.most + ROUNDING;
}

/* The distance of a fit whose weight is moved. */
static double moved(const fit_piece *piece, int64_t y, const neighbour *n, int64_t by) {
    return n->distance.carried + (double)(fitted(piece, y, n->z, n->weight + by) - n->fit);
}

static double noise_of(const neighbour *n) {
    return second(n[-1].distance.carried, n->distance.carried, n[1].distance.carried);
}

static void check_fits(const fit_piece *piece, int64_t y, const neighbour *n, piece_row *row) {
    const int64_t up = tolerances[FORMER];
    double noise = noise_of(n), fit = (double)(n[-1].fit - 2 * n->fit + n[1].fit);
    double alternating = second(moved(piece, y, n - 1, up), moved(piece, y, n, -up), moved(piece, y, n + 1, up));
    noise_range allowed = noise_within(n, ALLOWED);
    tally_check(is_within(allowed, noise), "noise of %.2f at Y %" PRId64 ", Z %" PRId64 ", %.2f to %.2f allowed", noise,
                y, n->z, allowed.least, allowed.most);
    row->broken += !is_within(allowed, alternating);
    raise_to(&row->fit, fit);
    raise_to(&row->exact, fit - noise);
    raise_to(&row->noise, noise);
    for (int i = 0; i < TOLERANCES; i++) {
        noise_range range = noise_within(n, i);
        raise_to(&row->by_weights[i], fmax(fabs(range.least), fabs(range.most)));
    }
}

static void check_kelvin(int64_t y, const neighbour *n, piece_row *row) {
    double off = second(n[-1].kelvin, n->kelvin, n[1].kelvin);
    tally_check(fabs(off) < 8, "T is off by %.2f millionths at Y %" PRId64 ", Z %" PRId64, off, y, n->z);
    raise_to(&row->kelvin, off + noise_of(n) * 1e-4);
}

/* All walks of a piece. */
static piece_row walk_piece(fitted_property of, const piece_box *box) {
    const fit_piece *piece = piece_at(of, box->most_y, box->most_z);
    piece_row row = {0};
    int64_t ys[DENSITIES];
    int count = walk_densities(piece, box, ys);
    for (int i = 0; i < WALKS; i++) {
        int64_t y = ys[(2 * i + 1) * count / (2 * WALKS)];
        air_state s = state_near(fitted_kind(of), y, walk_start(piece, box, y));
        y = eas_evaluate(s.kind, s.first, s.second).y; /* one that a density has */
        if (!take_walk(of, y, walk_start(piece, box, y)))
            continue;
        row.pairs += STATES - 1;
        for (int j = 0; j < STATES; j++)
            raise_to(&row.b, (double)bicubic(piece->b, y, walked[j].z) * 1e-10);
        for (int j = 1; j + 1 < STATES; j++) {
            tally_case("three of a walk", (uint64_t)j);
            check_fits(piece, y, &walked[j], &row);
            if (of == TEMPERATURE)
                check_kelvin(y, &walked[j], &row);
        }
    }
    return row;
}

static void print_row(fitted_property of, int label, const piece_row *row) {
    printf("  %5d %6" PRIu64 " %7.4f %8.0f %8.2f %8.1f %9.1f %9.1f %7" PRIu64, label, row->pairs, row->b, row->fit,
           row->exact, row->noise, row->by_weights[ALLOWED], row->by_weights[FORMER], row->broken);
    if (of == TEMPERATURE)
        printf(" %10.4f %9.2f", row->noise * 1e-4, row->kelvin);
    printf("\n");
}

static void walk_property(fitted_property of) {
    piece_box box;
    for (int i = 0; i < BANDS * PIECES; i++) {
        density_band band = (density_band)(i / PIECES);
        if (!box_of(of, band, i % PIECES, &box) || printed_pieces[of][band][i % PIECES].b[0] == NULL)
            continue;
        int label = printed_pieces[of][band][i % PIECES].label;
        piece_row row = walk_piece(of, &box);
        print_row(of, label, &row);
        tally_check(row.pairs >= 10000, "label %d: %" PRIu64 " pairs", label, row.pairs);
        tally_check(row.broken > 0, "label %d: weights that go up and down are not seen", label);
        if (of == TEMPERATURE)
            tally_check(row.kelvin > 10 * row.noise * 1e-4, "label %d: T is off by only %.4f millionths", label,
                        row.kelvin);
    }
}

int main(void) {
    tally_start("neighbours", 0);
    for (int of = 0; of < FITTED; of++) {
        printf("  %s: largest second differences in units of 10^-10%s\n", of == TEMPERATURE ? "G" : "gamma",
               of == TEMPERATURE ? "; the noise also in millionths, with that of the logarithm of T" : "");
        printf("  %5s %6s %7s %8s %8s %8s %9s %9s %7s%s\n", "label", "pairs", "|B|", "fit", "exact", "noise",
               "within 2", "within 10", "broken", of == TEMPERATURE ? "    G, 1e-6   T, 1e-6" : "");
        walk_property((fitted_property)of);
    }
    return tally_end();
}
