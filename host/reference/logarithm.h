/* The decimal logarithm of a ratio of whole numbers, in millionths, compared exactly with whole numbers. */
#ifndef REFERENCE_LOGARITHM_H
#define REFERENCE_LOGARITHM_H

#include <mpfr.h>
#include <stdbool.h>
#include <stdint.h>

/* 1,000,000 log10(over / under) lies from low to high; both numbers above 0. */
typedef struct {
    uint64_t over, under;
    mpfr_t low, high;
} ratio_logarithm;

void logarithm_init(ratio_logarithm *l);
void logarithm_clear(ratio_logarithm *l);
void logarithm_of(ratio_logarithm *l, uint64_t over, uint64_t under);

/* -1, 0 or 1: the logarithm is below, at or above a whole number of millionths. Equally: (over/under)^1,000,000
 * against 10^whole. */
int logarithm_compare(ratio_logarithm *l, int64_t whole);

/* Document 01, free answer one. */
bool logarithm_allowed(ratio_logarithm *l, int64_t taken);

#endif
