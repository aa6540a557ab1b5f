/* Bands, pieces, the bicubic and the exponent, with document 01's rounding and without any. */
#ifndef REFERENCE_FIT_H
#define REFERENCE_FIT_H

#include <stdbool.h>
#include <stdint.h>

#include "numerals.h"
#include "wide.h"

typedef enum { LOW_BAND, MIDDLE_BAND, HIGH_BAND } density_band;

/* A strip around a density edge: from lower to upper, both outside of it. */
typedef struct {
    int64_t lower, upper;
} density_strip;

enum { STRIPS = 2 };
extern const density_strip density_strips[STRIPS];

/* Coefficients in units of 10^-10. */
typedef struct {
    int label;
    int64_t upper; /* last Z of the piece */
    bool weighed;  /* has a B and an exponent */
    bool minus;    /* B is divided by 1 - exp */
    int64_t kept;  /* how far from 0 the exponent may go; 0 where nothing keeps it */
    int64_t a[BICUBIC_TERMS], b[BICUBIC_TERMS], exponent[EXPONENT_TERMS];
} fit_piece;

enum { PERFECT_LIMIT = 250000, LOWEST_Z = -1000000, HIGHEST_Z = 3000000, ENTROPY_PERFECT_LIMIT = 650000 };

density_band band_of(int64_t y);
bool strip_of(int64_t y, density_strip *strip);

/* The straight line from low at the lower edge to high at the upper one, its rise to Y rounded down. */
wide straight_line(const density_strip *strip, int64_t y, wide low, wide high);

int64_t entropy_limit(density_band band);

/* The largest Z that the pieces of Y's band are made for. */
int64_t fit_limit(fitted_property of, int64_t y);

/* The piece of Y's band that holds Z, and its place among the band's; above the limit it is the last. A temperature's Z
 * is above PERFECT_LIMIT. */
const fit_piece *piece_at(fitted_property of, int64_t y, int64_t z);
int piece_place(fitted_property of, int64_t y, int64_t z);

const int64_t *entropy_coefficients(density_band band);

/* Units of 10^-10, each product rounded down. */
wide bicubic(const int64_t c[BICUBIC_TERMS], int64_t y, int64_t z);
wide exponent(const fit_piece *piece, int64_t y, int64_t z);

/* A + W·B/10^10, the fraction rounded down; A alone where there is no B. */
wide fitted(const fit_piece *piece, int64_t y, int64_t z, int64_t weight);

/* The whole weight that is nearest to the ideal one, by long doubles: one that is allowed. 0 where there is no B. */
int64_t nearest_weight(const fit_piece *piece, int64_t y, int64_t z);

/* Without rounding: the bicubic in units of 10^-28, the exponent in units of 10^-22. */
enum { EXACT_EXPONENT_DECIMALS = 22 };
wide exact_bicubic(const int64_t c[BICUBIC_TERMS], int64_t y, int64_t z);
wide exact_exponent(const fit_piece *piece, int64_t y, int64_t z);

#endif
