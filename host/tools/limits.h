/* Standards, ranges and limits of the fits, once for the tools, the plain calculator, the benchmarks and the fuzz
 * drivers. The reference, which judges the library, has its own. */
#ifndef LIMITS_H
#define LIMITS_H

#include <stdbool.h>
#include <stdint.h>

/* Pressure in micropascal, density in 10^-11 kg/m3, energy in mJ/kg, temperature in microkelvin. */
#define STANDARD_PRESSURE UINT64_C(101330000000)
#define STANDARD_DENSITY UINT64_C(129200000000)
#define STANDARD_ENERGY UINT64_C(78408400)
#define STANDARD_TEMPERATURE UINT64_C(273150000)

#define LEAST_PRESSURE UINT64_C(1)
#define MOST_PRESSURE UINT64_C(100000000000000000)
#define LEAST_DENSITY UINT64_C(12920)
#define MOST_DENSITY UINT64_C(129200000000000)
#define LEAST_ENERGY UINT64_C(7840840)
#define MOST_ENERGY UINT64_C(1000000000000)

/* The largest G of a temperature that is shown, and what a shown pressure's gamma lies between, in units of 10^-10. */
#define MOST_FIT INT64_C(19600000000)
#define BELOW_GAMMA INT64_C(10100000000)
#define ABOVE_GAMMA INT64_C(20000000000)

/* A minus transition's exponent is at least this far from 0, in the same units. */
#define LEAST_MINUS_EXPONENT INT64_C(500000000)

/* The rest is in millionths: Y and Z as an answer carries them. */
#define MILLIONTHS(number) ((number) / 1e6)

enum { LEAST_Y = -7000000, MOST_Y = 3000000 };

/* Density bands; an edge belongs to the lower one. Strictly inside a strip around each edge entropy and pressure are
 * joined, and temperature where its Z is above PERFECT_Z. */
enum { LOW, MIDDLE, HIGH };
enum { LOWER_EDGE = -4500000, UPPER_EDGE = -500000, LOWER_HALF = 25000, UPPER_HALF = 5000 };

/* Z of a temperature: its window, the end of the perfect gas, and the ends of each band's fitted pieces. */
enum { LEAST_Z = -1000000, MOST_Z = 3000000, PERFECT_Z = 250000, PIECE_ENDS = 4 };
static const int32_t piece_end[3][PIECE_ENDS] = {
    [LOW] = {950000, 1400000, 1950000, MOST_Z},
    [MIDDLE] = {950000, 1400000, 2000000, MOST_Z},
    [HIGH] = {950000, 1450000, MOST_Z, MOST_Z},
};

/* Z of an entropy: the end of the perfect gas, and each band's largest. */
enum { PERFECT_ENTROPY_Z = 650000 };
static const int32_t entropy_most_z[3] = {[LOW] = 3690000, [MIDDLE] = 3400000, [HIGH] = 3000000};

/* Z of a pressure: the ends of each band's pieces, of which the last is the band's largest. */
enum { PRESSURE_ENDS = 6 };
static const int32_t pressure_end[3][PRESSURE_ENDS] = {
    [LOW] = {650000, 1500000, 2200000, 3050000, 3400000, 3690000},
    [MIDDLE] = {650000, 1500000, 2220000, 2950000, 3400000, 3400000},
    [HIGH] = {650000, 1700000, 2350000, 2900000, 2900000, 2900000},
};
static inline int32_t pressure_most_z(int band) {
    return pressure_end[band][PRESSURE_ENDS - 1];
}

static inline int density_band(int64_t y) {
    return y <= LOWER_EDGE ? LOW : y <= UPPER_EDGE ? MIDDLE : HIGH;
}

/* Whether Y lies strictly inside a strip, and if so the strip's middle and half its width. */
static inline bool inside_strip(int64_t y, int64_t *middle, int64_t *half) {
    *middle = y < (LOWER_EDGE + UPPER_EDGE) / 2 ? LOWER_EDGE : UPPER_EDGE;
    *half = *middle == LOWER_EDGE ? LOWER_HALF : UPPER_HALF;
    return *middle - *half < y && y < *middle + *half;
}

#endif
