#include "fit.h"

#include <math.h>
#include <stddef.h>

static fit_piece pieces[FITTED][BANDS][PIECES];
static int64_t entropy_rows[BANDS][BICUBIC_TERMS];

static void read_numerals(int64_t *out, const char *const *numerals, int count) {
    for (int i = 0; i < count; i++)
        out[i] = numerals[i] == NULL ? 0 : numeral_units(numerals[i]);
}

static void read_piece(fit_piece *to, const printed_piece *from) {
    to->label = from->label;
    to->upper = from->upper;
    to->weighed = from->b[0] != NULL;
    to->minus = from->minus;
    to->kept = from->kept == NULL ? 0 : numeral_units(from->kept);
    read_numerals(to->a, from->a, BICUBIC_TERMS);
    read_numerals(to->b, from->b, BICUBIC_TERMS);
    read_numerals(to->exponent, from->exponent, EXPONENT_TERMS);
}

static void read_tables_once(void) {
    static bool done;
    if (done)
        return;
    for (int band = 0; band < BANDS; band++) {
        for (int i = 0; i < FITTED * PIECES; i++)
            read_piece(&pieces[i / PIECES][band][i % PIECES], &printed_pieces[i / PIECES][band][i % PIECES]);
        read_numerals(entropy_rows[band], printed_entropy[band], BICUBIC_TERMS);
    }
    done = true;
}

/* Density edges, and half the width of the strip around each. */
enum { LOW_EDGE = -4500000, HIGH_EDGE = -500000, LOW_HALF = 25000, HIGH_HALF = 5000 };

density_band band_of(int64_t y) {
    return y <= LOW_EDGE ? LOW_BAND : y <= HIGH_EDGE ? MIDDLE_BAND : HIGH_BAND;
}

const density_strip density_strips[STRIPS] = {{LOW_EDGE - LOW_HALF, LOW_EDGE + LOW_HALF},
                                              {HIGH_EDGE - HIGH_HALF, HIGH_EDGE + HIGH_HALF}};

bool strip_of(int64_t y, density_strip *strip) {
    for (int i = 0; i < STRIPS; i++) {
        if (density_strips[i].lower < y && y < density_strips[i].upper) {
            *strip = density_strips[i];
            return true;
        }
    }
    return false;
}

wide straight_line(const density_strip *strip, int64_t y, wide low, wide high) {
    return low + floor_divide((high - low) * (y - strip->lower), strip->upper - strip->lower);
}

int64_t entropy_limit(density_band band) {
    return band == LOW_BAND ? 3690000 : band == MIDDLE_BAND ? 3400000 : 3000000;
}

int piece_place(fitted_property of, int64_t y, int64_t z) {
    const printed_piece *piece = printed_pieces[of][band_of(y)];
    int i = 0;
    while (z > piece[i].upper && i + 1 < PIECES && piece[i + 1].label != 0)
        i++;
    return i;
}

int64_t fit_limit(fitted_property of, int64_t y) {
    return printed_pieces[of][band_of(y)][piece_place(of, y, INT64_MAX)].upper;
}

const fit_piece *piece_at(fitted_property of, int64_t y, int64_t z) {
    read_tables_once();
    return &pieces[of][band_of(y)][piece_place(of, y, z)];
}

const int64_t *entropy_coefficients(density_band band) {
    read_tables_once();
    return entropy_rows[band];
}

/* Document 01's mul. */
static wide mul(wide a, int64_t b) {
    return floor_divide(a * b, 1000000);
}

wide bicubic(const int64_t c[BICUBIC_TERMS], int64_t y, int64_t z) {
    wide constant = c[0] + mul(c[1], y);
    wide by_z = mul(c[2] + mul(c[3], y), z);
    wide by_yy = mul(mul(c[4] + mul(c[5], z) + mul(c[6], y), y), y);
    wide by_zz = mul(mul(c[7] + mul(c[8], y) + mul(c[9], z), z), z);
    return constant + by_z + by_yy + by_zz;
}

/* The number of that size or less that is nearest to q; q where the size is 0. */
static wide keep(wide q, wide size) {
    return size == 0 ? q : q > size ? size : q < -size ? -size : q;
}

wide exponent(const fit_piece *piece, int64_t y, int64_t z) {
    const int64_t *c = piece->exponent;
    return keep(c[0] + mul(c[1], y) + mul(c[2], z) + mul(mul(c[3], y), z), piece->kept);
}

wide fitted(const fit_piece *piece, int64_t y, int64_t z, int64_t weight) {
    wide a = bicubic(piece->a, y, z);
    if (!piece->weighed)
        return a;
    return a + floor_divide(weight * bicubic(piece->b, y, z), 10000000000);
}

int64_t nearest_weight(const fit_piece *piece, int64_t y, int64_t z) {
    const long double one = 1.0e10L;
    if (!piece->weighed)
        return 0;
    long double power = expl((long double)exponent(piece, y, z) / one);
    return llrintl(one / (piece->minus ? 1.0L - power : 1.0L + power));
}

/* A coefficient in units times a product of n logarithms in millionths, as units of 10^-28: the missing 3 - n
 * logarithms count as 1,000,000 each. |coefficient| < 2^41, |y|, |z| < 2^24, so that each term is below 2^113. */
wide exact_bicubic(const int64_t c[BICUBIC_TERMS], int64_t y, int64_t z) {
    const wide one = 1000000, wy = y, wz = z;
    wide sum = c[0] * one * one * one;
    sum += (c[1] * wy + c[2] * wz) * one * one;
    sum += (c[3] * wy * wz + c[4] * wy * wy + c[7] * wz * wz) * one;
    sum += c[5] * wz * wy * wy + c[6] * wy * wy * wy;
    return sum + c[8] * wy * wz * wz + c[9] * wz * wz * wz;
}

wide exact_exponent(const fit_piece *piece, int64_t y, int64_t z) {
    const int64_t *c = piece->exponent;
    const wide one = 1000000, wy = y, wz = z;
    return keep(c[0] * one * one + (c[1] * wy + c[2] * wz) * one + c[3] * wy * wz, piece->kept * one * one);
}
