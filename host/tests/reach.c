#include "reach.h"

#include <inttypes.h>
#include <math.h>
#include <stdio.h>

#include "reference/answer.h"
#include "states.h"
#include "tally.h"

enum { SHOWN_NUMBERS = 18, NEIGHBOURS = 3, MARKS = 3, SIDES = 2 };

static uint64_t by_number[SHOWN_NUMBERS], by_piece[FITTED][BANDS][PIECES], perfect_gases, joined_entropies;

/* Of fitted states in and beside a strip. */
typedef struct {
    uint64_t fitted[MARKS][NEIGHBOURS]; /* Y one below, on and one above the lower edge, the middle, the upper edge */
    uint64_t pairs[MOST_PAIRS];         /* joins, by the pair of pieces at the edges */
    uint64_t ends[SIDES];               /* inside, the last perfect gas and the first fitted temperature; the last
                                           pressure and the first that is refused */
    uint64_t far;                       /* temperatures over a kelvin from that of a line between the exponents */
} strip_reach;

static strip_reach by_strip[FITTED][STRIPS];

/* Pressures: Z on the limit of a band and one above, outside the strips; a weight below none; an exponent that is kept
 * from going farther up (none comes near the lower end). */
static uint64_t by_limit[BANDS][SIDES], negative_weights, kept_exponents;

/* 13 in a strip, by the edges that are beyond their limit. */
enum { LOWER_BEYOND = 1, UPPER_BEYOND = 2, BOTH_BEYOND = 3 };
static uint64_t by_edges[BOTH_BEYOND + 1];

/* Single points of states.c: a far join in the wider strip, a single fit beside the narrower one. */
static uint64_t far_in_wider, single_beside_narrower;

static bool is_beyond(const eas_edge *edge) {
    return fit_beyond(TEMPERATURE, edge->fit);
}

static double kelvin(double fit) {
    return (double)T0 * 1e-6 * pow(10.0, fit * 1e-10);
}

static bool is_far(const eas_answer *a, const density_strip *strip) {
    double part = (double)(a->y - strip->lower) / (double)(strip->upper - strip->lower);
    double low = (double)a->low.fit, high = (double)a->high.fit;
    return fabs(kelvin(low + (high - low) * part) - (double)a->value * 1e-6) > 1.0;
}

static void count_join(fitted_property of, strip_reach *reach, const density_strip *strip, const eas_answer *a) {
    int64_t ends[MOST_PAIRS];
    int pair = 0;
    if (a->number == 13)
        by_edges[(is_beyond(&a->low) ? LOWER_BEYOND : 0) + (is_beyond(&a->high) ? UPPER_BEYOND : 0)]++;
    if (a->number != 0)
        return;
    pair_ends(of, strip, ends);
    while (a->z > ends[pair])
        pair++;
    reach->pairs[pair]++;
    if (of != TEMPERATURE)
        return;
    reach->far += is_far(a, strip);
    far_in_wider += a->y == -4490000 && is_far(a, strip);
}

/* The last Z of the perfect gas, or of a strip's pressures. */
static int64_t strip_end(fitted_property of, const density_strip *strip) {
    int64_t ends[MOST_PAIRS];
    if (of == TEMPERATURE)
        return PERFECT_LIMIT;
    int count = pair_ends(of, strip, ends);
    return ends[count - 1];
}

static void count_in_strip(fitted_property of, strip_reach *reach, const density_strip *strip, const eas_answer *a) {
    const int64_t marks[MARKS] = {strip->lower, (strip->lower + strip->upper) / 2, strip->upper};
    int64_t above = a->z - strip_end(of, strip);
    bool inside = strip->lower < a->y && a->y < strip->upper;
    if (inside && (above == 0 || above == 1))
        reach->ends[above]++;
    if (a->z <= fit_start(of) || a->number == 12 || (a->number == 17 && !(a->carries & EAS_CARRIES_LOW)))
        return;
    for (int i = 0; i < MARKS; i++)
        if (a->y - marks[i] >= -1 && a->y - marks[i] <= 1)
            reach->fitted[i][a->y - marks[i] + 1]++;
    if (inside)
        count_join(of, reach, strip, a);
}

/* Outside the strips. */
static void count_single(fitted_property of, const eas_answer *a) {
    const fit_piece *piece = piece_at(of, a->y, a->z);
    by_piece[of][band_of(a->y)][piece_place(of, a->y, a->z)]++;
    single_beside_narrower += of == TEMPERATURE && a->y == -510000;
    negative_weights += a->low.weight < 0;
    kept_exponents += piece->kept != 0 && exponent(piece, a->y, a->z) == piece->kept;
}

static void count_fitted(fitted_property of, const eas_answer *a) {
    density_strip strip;
    int64_t above = a->z - fit_limit(of, a->y);
    for (int i = 0; i < STRIPS; i++)
        count_in_strip(of, &by_strip[of][i], &density_strips[i], a);
    if (of == PRESSURE && !strip_of(a->y, &strip) && (above == 0 || above == 1))
        by_limit[band_of(a->y)][above]++;
    if (a->number != 0)
        return;
    if (a->z <= fit_start(of))
        perfect_gases++;
    else if (!(a->carries & EAS_CARRIES_HIGH))
        count_single(of, a);
}

void reach_count(const eas_answer *a) {
    density_strip strip;
    by_number[a->number < SHOWN_NUMBERS ? a->number : 0]++;
    if (a->letter == 'T' || a->letter == 'P')
        count_fitted(a->letter == 'T' ? TEMPERATURE : PRESSURE, a);
    else if (a->number == 0)
        joined_entropies += strip_of(a->y, &strip);
}

/* Prints a count and counts it as a check. */
static void check_count(const char *title, int64_t key, uint64_t count) {
    printf(" %" PRId64 ": %" PRIu64, key, count);
    tally_check(count > 0, "no state reaches %s %" PRId64, title, key);
}

static void check_numbers(void) {
    static const uint32_t numbers[] = {0, 6, 10, 11, 12, 13, 17};
    printf("  states by number:");
    for (size_t i = 0; i < sizeof numbers / sizeof numbers[0]; i++)
        check_count("number", numbers[i], by_number[numbers[i]]);
    printf("\n  single fits by label:");
    for (int i = 0; i < FITTED * BANDS * PIECES; i++) {
        int of = i / (BANDS * PIECES), band = i / PIECES % BANDS;
        if (printed_pieces[of][band][i % PIECES].label != 0)
            check_count("label", printed_pieces[of][band][i % PIECES].label, by_piece[of][band][i % PIECES]);
    }
    printf("\n  perfect gases: %" PRIu64 ", joined entropies: %" PRIu64 "\n", perfect_gases, joined_entropies);
    tally_check(perfect_gases > 0 && joined_entropies > 0, "no perfect gas or no joined entropy");
}

static void check_pairs(fitted_property of, const strip_reach *reach, const density_strip *strip) {
    int64_t ends[MOST_PAIRS];
    int count = pair_ends(of, strip, ends);
    printf("  joins by labels:");
    for (int i = 0; i < count; i++) {
        printf(" %d and", piece_at(of, strip->lower, ends[i])->label);
        check_count("a join with label", piece_at(of, strip->upper, ends[i])->label, reach->pairs[i]);
    }
    printf("\n");
}

static void check_strip(fitted_property of, const strip_reach *reach, const density_strip *strip) {
    printf("  strip from %" PRId64 " to %" PRId64 ", fitted %s by Y:", strip->lower, strip->upper,
           of == TEMPERATURE ? "temperatures" : "pressures");
    for (int i = 0; i < MARKS * NEIGHBOURS; i++)
        check_count("Y", strip->lower + (strip->upper - strip->lower) / 2 * (i / NEIGHBOURS) + i % NEIGHBOURS - 1,
                    reach->fitted[i / NEIGHBOURS][i % NEIGHBOURS]);
    printf("\n  by Z:");
    for (int i = 0; i < SIDES; i++)
        check_count("in a strip Z", strip_end(of, strip) + i, reach->ends[i]);
    if (of == TEMPERATURE) {
        printf(", far from a line between exponents: %" PRIu64, reach->far);
        tally_check(reach->far > 0, "no join is far from a line between exponents");
    }
    printf("\n");
    check_pairs(of, reach, strip);
}

static void check_pressures(void) {
    printf("  pressures outside the strips by Z:");
    for (int band = 0; band < BANDS; band++) {
        static const int64_t ys[BANDS] = {-5000000, -1000000, 0};
        for (int i = 0; i < SIDES; i++)
            check_count("outside a strip Z", fit_limit(PRESSURE, ys[band]) + i, by_limit[band][i]);
    }
    printf("\n  weights below none: %" PRIu64 ", exponents kept: %" PRIu64 "\n", negative_weights, kept_exponents);
    tally_check(negative_weights > 0, "no weight below none");
    tally_check(kept_exponents > 0, "no exponent that is kept");
}

void reach_check(void) {
    tally_case("reach of states", 0);
    check_numbers();
    for (int i = 0; i < FITTED * STRIPS; i++)
        check_strip((fitted_property)(i / STRIPS), &by_strip[i / STRIPS][i % STRIPS], &density_strips[i % STRIPS]);
    check_pressures();
    printf("  13 in a strip by the lower edge %" PRIu64 ", by the upper one %" PRIu64 ", by both %" PRIu64 "\n",
           by_edges[LOWER_BEYOND], by_edges[UPPER_BEYOND], by_edges[BOTH_BEYOND]);
    for (int i = LOWER_BEYOND; i <= BOTH_BEYOND; i++)
        tally_check(by_edges[i] > 0, "no 13 in a strip by edges %d", i);
    tally_check(far_in_wider > 0, "no join far from a line between exponents at Y = -4,490,000");
    tally_check(single_beside_narrower > 0, "no single fit at Y = -510,000");
}

void reach_numbers(const char *title, const uint64_t *counts, const uint32_t *numbers, int count) {
    printf("  %s:", title);
    for (int i = 0; i < count; i++)
        printf(" %" PRIu32 ": %" PRIu64, numbers[i], counts[numbers[i]]);
    printf("\n");
    for (int i = 0; i < count; i++)
        tally_check(counts[numbers[i]] > 0, "%s: none gets %" PRIu32, title, numbers[i]);
}
