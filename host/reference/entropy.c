/* Document 01, Entropy: the value with its roundings, and the exact one. */
#include "entropy.h"

enum { R_UNITS = 28706, LOG_TEN = 2302585, START = 67792004 };

static wide perfect_rise(int64_t y, int64_t z) {
    return (5 * (wide)(z - 400000) - 2 * (wide)y) * R_UNITS * LOG_TEN;
}

static wide value_at(int64_t y, int64_t z) {
    if (z <= ENTROPY_PERFECT_LIMIT)
        return START + floor_divide(perfect_rise(y, z), 20000000000);
    return floor_divide(R_UNITS * bicubic(entropy_coefficients(band_of(y)), y, z), 100000000);
}

wide entropy_value(int64_t y, int64_t z) {
    density_strip strip;
    if (!strip_of(y, &strip))
        return value_at(y, z);
    return straight_line(&strip, y, value_at(strip.lower, z), value_at(strip.upper, z));
}

bool entropy_beyond(int64_t y, int64_t z) {
    density_strip strip;
    if (!strip_of(y, &strip))
        return z > entropy_limit(band_of(y));
    return z > entropy_limit(band_of(strip.lower)) || z > entropy_limit(band_of(strip.upper));
}

static void set_fraction(mpq_t out, wide over, unsigned decimals) {
    wide_to_mpz(mpq_numref(out), over);
    mpz_ui_pow_ui(mpq_denref(out), 10, decimals);
    mpq_canonicalize(out);
}

static void exact_at(mpq_t out, int64_t y, int64_t z) {
    if (z <= ENTROPY_PERFECT_LIMIT) {
        /* a half of 10^-10 is 5 of 10^-11 */
        set_fraction(out, START * (wide)100000000000 + 5 * perfect_rise(y, z), 11);
        return;
    }
    /* n in units of 10^-28 is n in units of 10^-10 with 18 more decimals, and 8 for the division */
    set_fraction(out, R_UNITS * exact_bicubic(entropy_coefficients(band_of(y)), y, z), 18 + 8);
}

static void exact_entropy(mpq_t out, int64_t y, int64_t z) {
    density_strip strip;
    if (!strip_of(y, &strip)) {
        exact_at(out, y, z);
        return;
    }
    mpq_t low, high, part;
    mpq_inits(low, high, part, NULL);
    exact_at(low, strip.lower, z);
    exact_at(high, strip.upper, z);
    mpq_set_si(part, y - strip.lower, (unsigned long)(strip.upper - strip.lower));
    mpq_canonicalize(part);
    mpq_sub(high, high, low);
    mpq_mul(high, high, part);
    mpq_add(out, low, high);
    mpq_clears(low, high, part, NULL);
}

bool entropy_near_exact(int64_t value, int64_t y, int64_t z) {
    mpq_t exact, bound;
    mpq_inits(exact, bound, NULL);
    exact_entropy(exact, y, z);
    mpq_set_si(bound, value, 1);
    mpq_sub(exact, exact, bound);
    mpq_abs(exact, exact);
    bool near = mpq_cmp_si(exact, ENTROPY_DISTANCE, 1) <= 0;
    mpq_clears(exact, bound, NULL);
    return near;
}
