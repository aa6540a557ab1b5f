/* Method: MPFR rounds log10 correctly, so a value rounded down and its upper neighbour enclose the true one. Where a
 * whole number lies inside the bounds, the precision doubles. That ends: unless over/under is a power of ten, which is
 * tested in whole numbers, its logarithm is irrational, because 10^(a/b) is a fraction only for whole a/b. */
#include "logarithm.h"

enum { FIRST_PRECISION = 64, MILLION = 1000000, KEPT = 61 };

void logarithm_init(ratio_logarithm *l) {
    mpfr_init2(l->low, FIRST_PRECISION);
    mpfr_init2(l->high, FIRST_PRECISION);
}

void logarithm_clear(ratio_logarithm *l) {
    mpfr_clear(l->low);
    mpfr_clear(l->high);
}

static void enclose(mpfr_t low, mpfr_t high, uint64_t number) {
    mpfr_t exact;
    mpfr_init2(exact, 64);
    mpfr_set_ui(exact, number, MPFR_RNDN);
    mpfr_log10(low, exact, MPFR_RNDD);
    mpfr_set(high, low, MPFR_RNDN);
    mpfr_nextabove(high);
    mpfr_clear(exact);
}

typedef struct {
    uint64_t number; /* 0: nothing yet */
    mpfr_t low, high;
} kept_logarithm;

/* Denominators are few, so that their bounds are kept. */
static const kept_logarithm *keep(uint64_t number, mpfr_prec_t precision) {
    static kept_logarithm table[KEPT];
    kept_logarithm *kept = &table[number % KEPT];
    if (kept->number == number && mpfr_get_prec(kept->low) == precision)
        return kept;
    if (kept->number != 0)
        mpfr_clears(kept->low, kept->high, (mpfr_ptr)0);
    mpfr_inits2(precision, kept->low, kept->high, (mpfr_ptr)0);
    kept->number = number;
    enclose(kept->low, kept->high, number);
    return kept;
}

static void enclose_ratio(ratio_logarithm *l, mpfr_prec_t precision) {
    const kept_logarithm *under = keep(l->under, precision);
    mpfr_set_prec(l->low, precision);
    mpfr_set_prec(l->high, precision);
    enclose(l->low, l->high, l->over);
    mpfr_sub(l->low, l->low, under->high, MPFR_RNDD);
    mpfr_sub(l->high, l->high, under->low, MPFR_RNDU);
    mpfr_mul_ui(l->low, l->low, MILLION, MPFR_RNDD);
    mpfr_mul_ui(l->high, l->high, MILLION, MPFR_RNDU);
}

void logarithm_of(ratio_logarithm *l, uint64_t over, uint64_t under) {
    l->over = over;
    l->under = under;
    enclose_ratio(l, FIRST_PRECISION);
}

/* Whether over/under is 10^tens, in whole numbers. */
static bool is_power_of_ten(const ratio_logarithm *l, int64_t tens) {
    if (tens < -19 || tens > 19)
        return false;
    mpz_t power, left, right;
    mpz_inits(power, left, right, NULL);
    mpz_ui_pow_ui(power, 10, (unsigned long)(tens < 0 ? -tens : tens));
    mpz_set_ui(left, l->over);
    mpz_set_ui(right, l->under);
    mpz_mul(tens < 0 ? left : right, tens < 0 ? left : right, power);
    bool equal = mpz_cmp(left, right) == 0;
    mpz_clears(power, left, right, NULL);
    return equal;
}

int logarithm_compare(ratio_logarithm *l, int64_t whole) {
    for (;;) {
        if (mpfr_cmp_si(l->low, whole) > 0)
            return 1;
        if (mpfr_cmp_si(l->high, whole) < 0)
            return -1;
        if (whole % MILLION == 0 && is_power_of_ten(l, whole / MILLION))
            return 0;
        enclose_ratio(l, 2 * mpfr_get_prec(l->low));
    }
}

bool logarithm_allowed(ratio_logarithm *l, int64_t taken) {
    const int64_t most = 100 * (int64_t)MILLION;
    if (taken < -most || taken > most)
        return false;
    return logarithm_compare(l, taken - 1) > 0 && logarithm_compare(l, taken + 1) < 0;
}
