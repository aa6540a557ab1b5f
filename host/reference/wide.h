/* Whole numbers of 128 bits and division rounded down. */
#ifndef REFERENCE_WIDE_H
#define REFERENCE_WIDE_H

#include <gmp.h>
#include <stdint.h>

__extension__ typedef __int128 wide;
__extension__ typedef unsigned __int128 unsigned_wide;

/* a / b toward minus infinity, b above 0. */
static inline wide floor_divide(wide a, wide b) {
    wide quotient = a / b;
    return a % b < 0 ? quotient - 1 : quotient;
}

static inline void wide_to_mpz(mpz_t out, wide a) {
    unsigned_wide size = a < 0 ? -(unsigned_wide)a : (unsigned_wide)a;
    uint64_t halves[2] = {(uint64_t)size, (uint64_t)(size >> 64)};
    mpz_import(out, 2, -1, sizeof halves[0], 0, 0, halves);
    if (a < 0)
        mpz_neg(out, out);
}

#endif
