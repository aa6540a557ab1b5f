#include "weight.h"

enum { FEWEST_TERMS = 128, MOST_TERMS = 400 };
static const int64_t ONE = 10000000000;

void bounds_init(term_bounds *b) {
    for (int i = 0; i < TERM_COUNTS; i++) {
        mpfr_init2(b->low[i], FIRST_WEIGHT_PRECISION);
        mpfr_init2(b->high[i], FIRST_WEIGHT_PRECISION);
    }
}

void bounds_clear(term_bounds *b) {
    for (int i = 0; i < TERM_COUNTS; i++) {
        mpfr_clear(b->low[i]);
        mpfr_clear(b->high[i]);
    }
}

/* The sums of u^j/j! for j up to 128 and up to 400, every step rounded the same way. The rest after a term that is
 * below 2^-(precision + 8) of the sum, with j at least 2u, is at most that term: it is left out below and counted
 * once above. */
static void sum_series(mpfr_t first, mpfr_t later, const mpfr_t u, mpfr_rnd_t rounding) {
    mpfr_prec_t precision = mpfr_get_prec(u);
    unsigned long twice = 2 * mpfr_get_ui(u, MPFR_RNDU);
    mpfr_t term;
    mpfr_init2(term, precision);
    mpfr_set_ui(term, 1, MPFR_RNDN);
    mpfr_set_ui(later, 1, MPFR_RNDN);
    for (unsigned long j = 1; j <= MOST_TERMS; j++) {
        mpfr_mul(term, term, u, rounding);
        mpfr_div_ui(term, term, j, rounding);
        mpfr_add(later, later, term, rounding);
        if (j <= FEWEST_TERMS)
            mpfr_set(first, later, rounding);
        if (mpfr_zero_p(term))
            break;
        if (j < FEWEST_TERMS || j < twice)
            continue;
        if (mpfr_get_exp(term) < mpfr_get_exp(later) - precision - 8) {
            if (rounding == MPFR_RNDU)
                mpfr_add(later, later, term, rounding);
            break;
        }
    }
    mpfr_clear(term);
}

static void exchange_signs(mpfr_t low, mpfr_t high) {
    mpfr_neg(low, low, MPFR_RNDN);
    mpfr_neg(high, high, MPFR_RNDN);
    mpfr_swap(low, high);
}

/* Bounds of 10^10/(1 + sum), or of 10^10/(1 - sum), which is -10^10/(sum - 1); the sums are overwritten. */
static void reciprocal(mpfr_t low, mpfr_t high, mpfr_t sum_low, mpfr_t sum_high, bool minus) {
    mpfr_t one;
    mpfr_init2(one, 64);
    mpfr_set_si(one, ONE, MPFR_RNDN);
    mpfr_add_si(sum_low, sum_low, minus ? -1 : 1, MPFR_RNDD);
    mpfr_add_si(sum_high, sum_high, minus ? -1 : 1, MPFR_RNDU);
    mpfr_div(low, one, sum_high, MPFR_RNDD);
    mpfr_div(high, one, sum_low, MPFR_RNDU);
    if (minus)
        exchange_signs(low, high);
    mpfr_clear(one);
}

static void subtract_from_one(mpfr_t low, mpfr_t high) {
    exchange_signs(low, high);
    mpfr_add_si(low, low, ONE, MPFR_RNDD);
    mpfr_add_si(high, high, ONE, MPFR_RNDU);
}

/* |q| / 10^decimals, rounded. */
static void set_size(mpfr_t u, wide q, unsigned decimals, mpfr_rnd_t rounding) {
    mpz_t size, scale;
    mpq_t fraction;
    mpz_inits(size, scale, NULL);
    mpq_init(fraction);
    wide_to_mpz(size, q < 0 ? -q : q);
    mpz_ui_pow_ui(scale, 10, decimals);
    mpq_set_num(fraction, size);
    mpq_set_den(fraction, scale);
    mpq_canonicalize(fraction);
    mpfr_set_q(u, fraction, rounding);
    mpq_clear(fraction);
    mpz_clears(size, scale, NULL);
}

/* Quick bounds of the sums. No sum is above the exponential. Up to u = 24 the rest of the series after 128 terms is
 * below 2·24^129/129! < 2^-100; from there on every sum is at least S(24) with 128 terms, above 26,000,000,000. */
static void quick_sums(mpfr_t low[TERM_COUNTS], mpfr_t high[TERM_COUNTS], const mpfr_t u_low, const mpfr_t u_high) {
    bool small = mpfr_cmp_ui(u_high, 24) <= 0, large = mpfr_cmp_ui(u_low, 24) >= 0;
    mpfr_t rest;
    mpfr_init2(rest, 64);
    mpfr_set_ui_2exp(rest, 1, -100, MPFR_RNDN);
    mpfr_exp(low[WITHOUT_END], u_low, MPFR_RNDD);
    mpfr_exp(high[WITHOUT_END], u_high, MPFR_RNDU);
    for (int i = 0; i < WITHOUT_END; i++) {
        mpfr_set_ui(low[i], large ? 26000000000 : 1, MPFR_RNDN);
        if (small)
            mpfr_sub(low[i], low[WITHOUT_END], rest, MPFR_RNDD);
        mpfr_set(high[i], high[WITHOUT_END], MPFR_RNDU);
    }
    mpfr_clear(rest);
}

/* The sums term by term, and the exponential as their limit. */
static void series_sums(mpfr_t low[TERM_COUNTS], mpfr_t high[TERM_COUNTS], const mpfr_t u_low, const mpfr_t u_high) {
    sum_series(low[TERMS_128], low[TERMS_400], u_low, MPFR_RNDD);
    mpfr_exp(low[WITHOUT_END], u_low, MPFR_RNDD);
    sum_series(high[TERMS_128], high[TERMS_400], u_high, MPFR_RNDU);
    mpfr_exp(high[WITHOUT_END], u_high, MPFR_RNDU);
}

void weights_of(term_bounds *w, transition t, mpfr_prec_t precision) {
    mpfr_t u_low, u_high, low[TERM_COUNTS], high[TERM_COUNTS];
    mpfr_inits2(precision, u_low, u_high, (mpfr_ptr)0);
    for (int i = 0; i < TERM_COUNTS; i++) {
        mpfr_inits2(precision, low[i], high[i], (mpfr_ptr)0);
        mpfr_set_prec(w->low[i], precision);
        mpfr_set_prec(w->high[i], precision);
    }
    set_size(u_low, t.q, t.decimals, MPFR_RNDD);
    set_size(u_high, t.q, t.decimals, MPFR_RNDU);
    if (precision == FIRST_WEIGHT_PRECISION)
        quick_sums(low, high, u_low, u_high);
    else
        series_sums(low, high, u_low, u_high);
    for (int i = 0; i < TERM_COUNTS; i++) {
        reciprocal(w->low[i], w->high[i], low[i], high[i], t.minus);
        if (t.q < 0)
            subtract_from_one(w->low[i], w->high[i]);
        mpfr_clears(low[i], high[i], (mpfr_ptr)0);
    }
    mpfr_clears(u_low, u_high, (mpfr_ptr)0);
}

/* The weights within a tolerance of numbers of which the largest is one of `above`, the least one of `below`. */
static weight_range within_of(mpfr_t above[TERM_COUNTS], mpfr_t below[TERM_COUNTS], int64_t tolerance, bool minus) {
    weight_range range = {minus ? INT64_MIN : 0, minus ? INT64_MAX : ONE};
    for (int i = 0; i < TERM_COUNTS; i++) {
        int64_t least = mpfr_get_si(above[i], MPFR_RNDU) - tolerance;
        int64_t most = mpfr_get_si(below[i], MPFR_RNDD) + tolerance;
        range.least = least > range.least ? least : range.least;
        range.most = most < range.most ? most : range.most;
    }
    return range;
}

weight_range weights_within(transition t, int64_t tolerance) {
    weight_range range = {0};
    bool open = true;
    term_bounds w;
    bounds_init(&w);
    for (mpfr_prec_t p = FIRST_WEIGHT_PRECISION; open && p <= LAST_WEIGHT_PRECISION; p *= 4) {
        weights_of(&w, t, p);
        weight_range sure = within_of(w.high, w.low, tolerance, t.minus);
        range = within_of(w.low, w.high, tolerance, t.minus);
        open = sure.least != range.least || sure.most != range.most;
    }
    bounds_clear(&w);
    return range;
}

bool weight_allowed(int64_t weight, transition t) {
    weight_range allowed = weights_within(t, WEIGHT_TOLERANCE);
    return allowed.least <= weight && weight <= allowed.most;
}
