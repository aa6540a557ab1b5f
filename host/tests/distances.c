/* How far the carried fits of every piece are from the exact ones, in units of 10^-10.
 *
 * distances [seed [states]]: so many states are tried for each piece, all over its densities and Z, at their ends, in
 * its transition, in the strips whose edges are in its band, and around the farthest fits so far. The table has the
 * largest distance of the library's own fits with its place; the largest that any weight within a tolerance would give
 * at the places met; and how far apart the fits of such weights lie at most. */
#include <inttypes.h>
#include <math.h>
#include <stdio.h>
#include <stdlib.h>

#include "carried.h"
#include "reference/claim.h"
#include "tally.h"

enum { DISTANCES_PART = 66, LARGEST_EXPONENT = 4 };

/* Distances of a place that are followed, beside those by tolerances. */
enum { CARRIED = TOLERANCES, FOLLOWED };

typedef struct {
    int64_t y, z;
} plane_place;

typedef struct {
    uint64_t fits, wider; /* wider: where the former tolerance allows more fits */
    double largest_b, largest[FOLLOWED], apart[TOLERANCES];
    plane_place at[FOLLOWED];
} piece_row;

static piece_row rows[FITTED][BANDS][PIECES];

/* A fit that an answer carries, and those by other weights. */
static void note_fit(fitted_property of, plane_place at, int64_t fit) {
    const fit_piece *piece = piece_at(of, at.y, at.z);
    piece_row *row = &rows[of][band_of(at.y)][piece_place(of, at.y, at.z)];
    place_distances d = distances_at(of, at.y, at.z, fit);
    double found[FOLLOWED] = {[CARRIED] = fabs(d.carried)}, most = (double)distance_allowed(of);
    for (int i = 0; i < TOLERANCES; i++) {
        found[i] = fmax(fabs(d.least[i]), fabs(d.most[i]));
        row->apart[i] = fmax(row->apart[i], round(d.most[i] - d.least[i]));
    }
    row->wider += round(d.most[FORMER] - d.least[FORMER]) > round(d.most[ALLOWED] - d.least[ALLOWED]);
    tally_check(d.least[ALLOWED] <= d.carried && d.carried <= d.most[ALLOWED],
                "%.1f units at Y %" PRId64 ", Z %" PRId64 ", %.1f to %.1f by allowed weights", d.carried, at.y, at.z,
                d.least[ALLOWED], d.most[ALLOWED]);
    tally_check(found[ALLOWED] <= most, "%.1f units by an allowed weight at Y %" PRId64 ", Z %" PRId64, found[ALLOWED],
                at.y, at.z);
    row->largest_b = fmax(row->largest_b, fabs((double)bicubic(piece->b, at.y, at.z)) * 1e-10);
    for (int i = 0; i < FOLLOWED; i++) {
        if (row->fits > 0 && found[i] <= row->largest[i])
            continue;
        row->largest[i] = found[i];
        row->at[i] = at;
    }
    row->fits++;
}

/* Every fit of the state next to a place. */
static void try_place(fitted_property of, plane_place at) {
    air_state s = state_near(fitted_kind(of), at.y, at.z);
    eas_answer a = eas_evaluate(s.kind, s.first, s.second);
    density_strip strip = {a.y, a.y};
    strip_of(a.y, &strip);
    if (a.carries & EAS_CARRIES_LOW)
        note_fit(of, (plane_place){strip.lower, a.z}, a.low.fit);
    if (a.carries & EAS_CARRIES_HIGH)
        note_fit(of, (plane_place){strip.upper, a.z}, a.high.fit);
}

/* Between two numbers, one time in four at one of them. */
static int64_t between_or_at_end(random_source *r, int64_t least, int64_t most) {
    if (random_below(r, 4) == 0)
        return random_below(r, 2) ? most : least;
    return random_between(r, least, most);
}

/* In the transition at this Y; anywhere where the piece has none there. */
static int64_t z_in_transition(random_source *r, fitted_property of, const piece_box *box, int64_t y) {
    const fit_piece *piece = piece_at(of, y, box->most_z);
    long double q = LARGEST_EXPONENT * 1e10L * (2 * (long double)random_unit(r) - 1);
    long double z = piece->weighed ? roundl(place_of_exponent(piece, y, q)) : 0;
    bool inside = piece->weighed && z >= (long double)box->least_z && z <= (long double)box->most_z;
    return inside ? (int64_t)z : random_between(r, box->least_z, box->most_z);
}

/* In a strip with an edge in the band, at a Z for that edge. */
static plane_place place_in_strip(random_source *r, fitted_property of, density_band band, const piece_box *box) {
    bool above = band == LOW_BAND || (band == MIDDLE_BAND && random_below(r, 2)); /* the strip above the band */
    const density_strip *strip = &density_strips[above ? (int)band : (int)band - 1];
    int64_t y = random_between(r, strip->lower + 1, strip->upper - 1);
    return (plane_place){y, z_in_transition(r, of, box, above ? strip->lower : strip->upper)};
}

/* Around a place, at most a tenth of a decade away, mostly much nearer. */
static plane_place place_around(random_source *r, plane_place at) {
    int64_t away = (int64_t)pow(10, 5 * random_unit(r));
    return (plane_place){at.y + random_between(r, -away, away), at.z + random_between(r, -away, away)};
}

static plane_place place_to_try(random_source *r, fitted_property of, density_band band, const piece_box *box,
                                const piece_row *row) {
    plane_place at = {between_or_at_end(r, box->least_y, box->most_y), between_or_at_end(r, box->least_z, box->most_z)};
    switch (random_below(r, row->fits > 0 ? 6 : 3)) {
    case 0:
        return at;
    case 1:
        return (plane_place){at.y, z_in_transition(r, of, box, at.y)};
    case 2:
        return place_in_strip(r, of, band, box);
    default:
        return place_around(r, row->at[random_below(r, FOLLOWED)]);
    }
}

static void print_row(int label, const piece_row *row) {
    printf("  %5d %9" PRIu64 " %7.3f %8.1f %9" PRId64 " %9" PRId64 " %9.1f %9.1f %9.0f %9.0f\n", label, row->fits,
           row->largest_b, row->largest[CARRIED], row->at[CARRIED].y, row->at[CARRIED].z, row->largest[ALLOWED],
           row->largest[FORMER], row->apart[ALLOWED], row->apart[FORMER]);
}

/* Tries states for a piece. Where it has a transition, the former tolerance must allow more. */
static void measure(fitted_property of, density_band band, int place, uint64_t seed, uint64_t states) {
    const printed_piece *piece = &printed_pieces[of][band][place];
    piece_row *row = &rows[of][band][place];
    piece_box box;
    if (!box_of(of, band, place, &box))
        return;
    for (uint64_t i = 0; i < states; i++) {
        random_source r = random_case(seed, DISTANCES_PART + (uint64_t)piece->label, i);
        tally_case("state for a piece", i);
        try_place(of, place_to_try(&r, of, band, &box, row));
    }
    print_row(piece->label, row);
    tally_check(row->fits >= states / 2, "label %d: %" PRIu64 " fits", piece->label, row->fits);
    tally_check((row->wider > 0) == (piece->b[0] != NULL), "label %d: the former tolerance allows more at %" PRIu64,
                piece->label, row->wider);
}

int main(int count, char **arguments) {
    uint64_t seed = count > 1 ? strtoull(arguments[1], NULL, 10) : 20260101;
    uint64_t states = count > 2 ? strtoull(arguments[2], NULL, 10) : 4000;
    tally_start("distances", seed);
    for (int of = 0; of < FITTED; of++) {
        printf("  %s: distances from the exact fit, %" PRId64 " allowed\n",
               of == TEMPERATURE ? "G of a temperature" : "gamma of a pressure", distance_allowed((fitted_property)of));
        printf("  %5s %9s %7s %8s %9s %9s %9s %9s %9s %9s\n", "label", "fits", "|B|", "largest", "at Y", "at Z",
               "within 2", "within 10", "apart, 2", "apart, 10");
        for (int i = 0; i < BANDS * PIECES; i++)
            measure((fitted_property)of, (density_band)(i / PIECES), i % PIECES, seed, states);
    }
    const piece_row *minus = &rows[PRESSURE][LOW_BAND][1]; /* whose B is the largest */
    tally_check(minus->largest[FORMER] > 2 * minus->largest[ALLOWED], "%.1f within the former tolerance, %.1f allowed",
                minus->largest[FORMER], minus->largest[ALLOWED]);
    return tally_end();
}
