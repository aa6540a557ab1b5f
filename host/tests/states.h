/* States to try: all edges of document 01 with their neighbours, and random ones. */
#ifndef HOST_STATES_H
#define HOST_STATES_H

#include <stddef.h>
#include <stdint.h>

#include "random.h"
#include "reference/fit.h"

typedef struct {
    uint8_t kind;
    uint64_t first, second;
} air_state;

/* standard·10^(millionths/1,000,000), to the nearest whole number, 1 at least. */
uint64_t scaled(uint64_t standard, long double millionths);

/* The state whose logarithms are next to these millionths, whether in range or not. */
air_state state_near(uint8_t kind, int64_t y, int64_t z);

/* The kind that asks for a fitted property, and the last Z before it is fitted. */
uint8_t fitted_kind(fitted_property of);
int64_t fit_start(fitted_property of);

/* The fit at a point by the nearest weight, in units of 10^-10. */
int64_t fit_near(fitted_property of, int64_t y, int64_t z);

/* Where a piece is used: the densities of its band, and its Z. False where the band has no such piece. */
typedef struct {
    int64_t least_y, most_y, least_z, most_z;
} piece_box;
bool box_of(fitted_property of, density_band band, int place, piece_box *box);

/* The Z, in millionths, at which a piece's exponent would be q units of 10^-10 at this Y. */
long double place_of_exponent(const fit_piece *piece, int64_t y, long double q);

/* The last Z of each pair of pieces that a Z gives at the edges of a strip, rising; returns their number. */
enum { MOST_PAIRS = 2 * PIECES };
int pair_ends(fitted_property of, const density_strip *strip, int64_t ends[MOST_PAIRS]);

/* Every edge with its neighbours; the list lives as long as the program. */
const air_state *edge_states(size_t *count);

/* A state of any sort: over the plane, near an edge, over the ranges, out of range, of an unknown kind. */
air_state random_state(random_source *r);

/* A state over the plane, of a known kind, nearly always accepted. */
air_state plane_state(random_source *r, uint8_t kind);

#endif
