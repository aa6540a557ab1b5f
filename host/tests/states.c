#include "states.h"

#include <math.h>
#include <stdlib.h>

#include "length.h"
#include "reference/answer.h"
#include "tally.h"

/* Density edges, strip edges, extremes, standards. */
static const int64_t y_edges[] = {-7000000, -6000000, -5000000, -4525000, -4500000, -4475000, -2000000, -1000000,
                                  -505000,  -500000,  -495000,  0,        1000000,  2000000,  3000000};
/* Window, perfect gas and piece ends of a temperature's Z; limits and extremes of an entropy's; piece ends, limits and
 * extremes of a pressure's. */
static const int64_t temperature_edges[] = {-1000000, 0,       250000,  650000,  950000, 1400000,
                                            1450000,  1950000, 2000000, 2500000, 3000000};
static const int64_t entropy_edges[] = {-1000000, 0,       400000,  650000,  1000000, 2000000,
                                        3000000,  3400000, 3500000, 3690000, 4000000};
static const int64_t pressure_edges[] = {-1000000, 0,       650000,  1500000, 1700000, 2200000, 2220000,
                                         2350000,  2900000, 2950000, 3050000, 3400000, 3690000, 4000000};
/* Z between the ends of pieces, for the strips. */
static const int64_t temperature_middles[] = {600000, 1175000, 1425000, 1700000, 1975000, 2250000};
static const int64_t pressure_middles[] = {300000,  1000000, 1250000, 1480000, 1600000, 1950000,
                                           2210000, 2290000, 2600000, 2925000, 3000000, 3200000};

typedef struct {
    const int64_t *z;
    size_t count;
} z_list;

#define LIST(array)                                                                                                    \
    { array, LENGTH(array) }
static const z_list z_edges[] = {[TEMPERATURE_KIND] = LIST(temperature_edges),
                                 [ENTROPY_KIND] = LIST(entropy_edges),
                                 [PRESSURE_KIND] = LIST(pressure_edges)};
static const z_list z_middles[FITTED] = {
    [TEMPERATURE] = LIST(temperature_middles), [PRESSURE] = LIST(pressure_middles)};
static const uint64_t odd_values[] = {0,         1,         2,         E_MIN - 1, E_MIN,     E_MIN + 1,
                                      E0,        P0,        E_MAX - 1, E_MAX,     E_MAX + 1, P_MAX - 1,
                                      P_MAX,     P_MAX + 1, D_MIN,     D_MAX,     INT64_MAX, INT64_MAX + UINT64_C(1),
                                      UINT64_MAX};
static const uint64_t odd_densities[] = {0,     1,         D_MIN - 1, D_MIN,     D_MIN + 1, D0,
                                         D_MAX, D_MAX - 1, D_MAX + 1, INT64_MAX, UINT64_MAX};
static const uint8_t odd_kinds[] = {0, 1, 2, 3, 4, 49, 128, 255};
/* Kinds of random states, as often as they stand here. */
static const uint8_t random_kinds[] = {1, 1, 1, 1, 2, 2, 3, 3, 3};

uint64_t scaled(uint64_t standard, long double millionths) {
    long double value = roundl((long double)standard * powl(10.0L, millionths / 1000000.0L));
    return value < 1.0L ? 1 : value > 1.8e19L ? UINT64_MAX : (uint64_t)value;
}

air_state state_near(uint8_t kind, int64_t y, int64_t z) {
    air_state s = {.kind = kind, .second = scaled(D0, (long double)y)};
    s.first = kind == 1 ? scaled(P0, (long double)(y + z)) : scaled(E0, (long double)z);
    return s;
}

uint8_t fitted_kind(fitted_property of) {
    return of == TEMPERATURE ? TEMPERATURE_KIND : PRESSURE_KIND;
}

int64_t fit_start(fitted_property of) {
    return of == TEMPERATURE ? PERFECT_LIMIT : LOWEST_Z - 1;
}

int64_t fit_near(fitted_property of, int64_t y, int64_t z) {
    const fit_piece *piece = piece_at(of, y, z);
    return (int64_t)fitted(piece, y, z, nearest_weight(piece, y, z));
}

bool box_of(fitted_property of, density_band band, int place, piece_box *box) {
    const printed_piece *pieces = printed_pieces[of][band];
    int64_t ends[BANDS + 1] = {-7000001, 0, 0, 3000000};
    for (int i = 0; i < STRIPS; i++)
        ends[i + 1] = (density_strips[i].lower + density_strips[i].upper) / 2;
    *box = (piece_box){.least_y = ends[band] + 1, .most_y = ends[band + 1]};
    box->least_z = (place == 0 ? fit_start(of) : pieces[place - 1].upper) + 1;
    box->most_z = pieces[place].upper;
    return pieces[place].label != 0;
}

long double place_of_exponent(const fit_piece *piece, int64_t y, long double q) {
    long double c1 = piece->exponent[0], c2 = piece->exponent[1], c3 = piece->exponent[2], c4 = piece->exponent[3];
    long double at = (long double)y / 1000000.0L;
    return (q - c1 - c2 * at) / (c3 + c4 * at) * 1000000.0L;
}

static int64_t lesser(int64_t a, int64_t b) {
    return a < b ? a : b;
}

int pair_ends(fitted_property of, const density_strip *strip, int64_t ends[MOST_PAIRS]) {
    int64_t limit = lesser(fit_limit(of, strip->lower), fit_limit(of, strip->upper));
    int count = 0;
    for (int64_t z = fit_start(of); z < limit; ends[count++] = z)
        z = lesser(piece_at(of, strip->lower, z + 1)->upper, piece_at(of, strip->upper, z + 1)->upper);
    return count;
}

static air_state *list;
static size_t used, room;

static void add(air_state s) {
    if (used == room) {
        room = room == 0 ? 4096 : 2 * room;
        list = realloc(list, room * sizeof list[0]);
        if (list == NULL)
            tally_stop("states");
    }
    list[used++] = s;
}

/* A point and its neighbours: two millionths to each side, and one whole number to each side of the values. */
static void add_around(uint8_t kind, int64_t y, int64_t z) {
    for (int64_t dy = -1; dy <= 1; dy++)
        for (int64_t dz = -2; dz <= 2; dz++)
            add(state_near(kind, y + dy, z + dz));
    for (int i = -1; i <= 1; i++) {
        for (int j = -1; j <= 1; j++) {
            air_state s = state_near(kind, y, z);
            s.first += (uint64_t)(int64_t)i;
            s.second += (uint64_t)(int64_t)j;
            add(s);
        }
    }
}

static void add_plane_edges(void) {
    for (size_t i = 0; i < LENGTH(y_edges); i++)
        for (int kind = 1; kind <= LAST_KIND; kind++)
            for (size_t j = 0; j < z_edges[kind].count; j++)
                add_around((uint8_t)kind, y_edges[i], z_edges[kind].z[j]);
}

/* Where an exponent at one Y passes zero, or what it is kept within, the states at another. */
static void add_transitions(fitted_property of, int64_t edge, int64_t y) {
    for (int64_t start = fit_start(of) + 1; start <= fit_limit(of, edge); start += 50000) {
        const fit_piece *piece = piece_at(of, edge, start);
        for (int side = -1; piece->weighed && side <= 1; side++) {
            long double z = place_of_exponent(piece, edge, (long double)(side * piece->kept));
            if ((side == 0 || piece->kept != 0) && fabsl(z - (long double)start) < 25000.0L)
                add_around(fitted_kind(of), y, (int64_t)z);
        }
    }
}

/* Where a temperature's G at one Y passes its upper limit, the states at another. It comes nowhere near the lower one,
 * and gamma, which stays from 1.07 to 1.41, near none of its own. */
static void add_fit_limits(int64_t edge, int64_t y) {
    const int64_t limit = HIGHEST_FIT, stride = 20000;
    for (int64_t z = 2000000; z < HIGHEST_Z; z += stride) {
        int64_t low = z, high = z + stride;
        bool starts_within = fit_near(TEMPERATURE, edge, low) <= limit;
        if ((fit_near(TEMPERATURE, edge, high) <= limit) == starts_within)
            continue;
        while (high - low > 1) {
            int64_t middle = (low + high) / 2;
            if ((fit_near(TEMPERATURE, edge, middle) <= limit) == starts_within)
                low = middle;
            else
                high = middle;
        }
        add_around(1, y, low);
    }
}

/* Points where G is the upper limit itself or one unit more. */
static void add_exact_limits(void) {
    static const int64_t points[][2] = {{-2919599, 2589131}, {-2856625, 2588004}, {-1869428, 2563264},
                                        {-1185631, 2536620}, {-2903467, 2588847}, {-1713843, 2557991},
                                        {-577462, 2503565},  {1139227, 2454118}};
    for (size_t i = 0; i < LENGTH(points); i++)
        add_around(1, points[i][0], points[i][1]);
}

/* Fitted states on, beside and between the edges of a strip: in every piece of either edge, and where the transition or
 * the limit of an edge's own fit lies. */
static void add_strip(fitted_property of, density_strip strip) {
    const int64_t middle = (strip.lower + strip.upper) / 2, edges[] = {strip.lower, strip.upper};
    const int64_t ys[] = {strip.lower, strip.lower + 1, middle, strip.upper - 1, strip.upper};
    for (size_t i = 0; i < LENGTH(ys); i++) {
        for (size_t j = 0; j < z_middles[of].count; j++)
            add_around(fitted_kind(of), ys[i], z_middles[of].z[j]);
        for (size_t j = 0; j < LENGTH(edges); j++) {
            add_transitions(of, edges[j], ys[i]);
            if (of == TEMPERATURE)
                add_fit_limits(edges[j], ys[i]);
        }
    }
}

/* Strips, and a point in the wider one and one outside the narrower one where temperatures rise steeply: there a line
 * between exponents, or the other strip's width, leads far away. */
static void add_strips(void) {
    for (int i = 0; i < FITTED * STRIPS; i++)
        add_strip((fitted_property)(i / STRIPS), density_strips[i % STRIPS]);
    add_around(1, -4490000, 2550000);
    add_around(1, -510000, 2450000);
}

/* Every kind with standard values; every pair of values at and beyond the ranges' ends, for known and unknown kinds. */
static void add_odd_values(void) {
    for (unsigned kind = 0; kind < 256; kind++)
        add((air_state){(uint8_t)kind, P0, D0});
    for (size_t k = 0; k < LENGTH(odd_kinds); k++)
        for (size_t i = 0; i < LENGTH(odd_values); i++)
            for (size_t j = 0; j < LENGTH(odd_densities); j++)
                add((air_state){odd_kinds[k], odd_values[i], odd_densities[j]});
}

const air_state *edge_states(size_t *count) {
    if (used == 0) {
        add_plane_edges();
        add_strips();
        for (int64_t y = -7000000; y <= 3000000; y += 125000)
            for (int of = 0; of < FITTED; of++)
                add_transitions((fitted_property)of, y, y);
        for (int64_t y = -7000000; y <= 3000000; y += 250000)
            add_fit_limits(y, y);
        add_exact_limits();
        add_odd_values();
    }
    *count = used;
    return list;
}

air_state plane_state(random_source *r, uint8_t kind) {
    static const int64_t most[] = {[TEMPERATURE_KIND] = 2999000, [ENTROPY_KIND] = 4105000, [PRESSURE_KIND] = 3750000};
    int64_t y = random_between(r, -6999990, 2999990);
    return state_near(kind, y, random_between(r, -999000, most[kind]));
}

/* Within twenty millionths of an edge in one direction or in both. */
static air_state state_near_edge(random_source *r, uint8_t kind) {
    int64_t y = y_edges[random_below(r, LENGTH(y_edges))];
    int64_t z = z_edges[kind].z[random_below(r, z_edges[kind].count)];
    uint64_t which = random_below(r, 3);
    if (which == 0)
        y = random_between(r, -6999990, 2999990);
    if (which == 1)
        z = random_between(r, -999000, 3500000);
    return state_near(kind, y + random_between(r, -20, 20), z + random_between(r, -20, 20));
}

/* Inside a strip, or next to its ends; each value up to a millionth of its logarithm higher. */
static air_state state_in_strip(random_source *r, uint8_t kind) {
    const density_strip *strip = &density_strips[random_below(r, STRIPS)];
    int64_t y = random_between(r, strip->lower - 3, strip->upper + 3);
    air_state s = state_near(kind, y, random_between(r, -999000, 3700000));
    s.first += random_below(r, s.first / 430000 + 1);
    s.second += random_below(r, s.second / 430000 + 1);
    return s;
}

/* Log-uniform over a range that is a little wider than the allowed one. */
static uint64_t any_size(random_source *r, uint64_t low, uint64_t high) {
    double from = log((double)low) - 0.05, to = log((double)high) + 0.05;
    return (uint64_t)exp(from + (to - from) * random_unit(r));
}

air_state random_state(random_source *r) {
    uint8_t kind = random_kinds[random_below(r, LENGTH(random_kinds))];
    switch (random_below(r, 16)) {
    case 0:
        return (air_state){(uint8_t)random_bits(r), random_bits(r) >> random_below(r, 64),
                           random_bits(r) >> random_below(r, 64)};
    case 1:
        return (air_state){kind, kind == 1 ? any_size(r, P_MIN, P_MAX) : any_size(r, E_MIN, E_MAX),
                           any_size(r, D_MIN, D_MAX)};
    case 2:
    case 3:
    case 4:
        return state_near_edge(r, kind);
    case 5:
    case 6:
        return state_in_strip(r, kind);
    default:
        return plane_state(r, kind);
    }
}
