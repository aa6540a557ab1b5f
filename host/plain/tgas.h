/* The listing of source document 000 in C doubles with libm: TGAS1's temperature (labels 300 to 450), joined at the
 * band edges as entropy is, its pressure (labels 90 to 260), joined with the state's own density where the listing
 * moves it to the edge, and TGAS2's entropy. Benchmarks are measured against it; the fuzz drivers compare with it. */
#ifndef TGAS_H
#define TGAS_H

#include <stdint.h>

#include "tools/limits.h"

/* The density band of y = log10 of the density ratio. */
int tgas_band(double y);

/* A fitted piece at (y, z): GAS1 to GAS4, GAS5 to GAS8 and the exponent of GAS9; without weight, b and exponent are 0.
 */
typedef struct {
    double a, b, exponent;
    int weighted; /* 1, or -1 where the exponential is taken from 1; 0: not at all */
} tgas_parts;

/* Temperature's piece of a band for z above 0.25. */
tgas_parts tgas1_parts(int band, double y, double z);

/* log10 of T/T0. */
double tgas1_fit(tgas_parts parts);

/* Gamma's piece of a band, and gamma. */
tgas_parts tgas1_gamma_parts(int band, double y, double z);
double tgas1_gamma(tgas_parts parts);

/* A strip around a band edge: its ends, and the band below; the next one is above. */
typedef struct {
    double low, high;
    int below;
} tgas_strip;

/* Whether y lies strictly inside a strip. */
int tgas_strip_at(double y, tgas_strip *strip);

/* The straight line between the values at a strip's ends. */
double tgas_line(const tgas_strip *strip, double y, double low, double high);

/* Entropy in J/(kg K) of a band, not joined. */
double tgas2_plain(int band, double y, double z);

/* Entropy in J/(kg K) joined at the band edges. */
double tgas2_joined(double y, double z);

/* Kelvin from micropascal and 10^-11 kg/m3; pascal and J/(kg K) from mJ/kg and 10^-11 kg/m3. */
double tgas1_temperature(uint64_t pressure, uint64_t density);
double tgas1_pressure(uint64_t energy, uint64_t density);
double tgas2_entropy(uint64_t energy, uint64_t density);

#endif
