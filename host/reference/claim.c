#include "claim.h"

#include "weight.h"

int64_t distance_allowed(fitted_property of) {
    return of == TEMPERATURE ? 4000 : 100000;
}

/* How many units of 10^-28 are one of 10^-10 and one millionth. */
enum { UNIT_ZEROS = 18, MILLIONTH_ZEROS = 22 };

static void set_wide(mpfr_t out, wide a) {
    mpz_t z;
    mpz_init(z);
    wide_to_mpz(z, a);
    mpfr_set_z(out, z, MPFR_RNDN); /* below 2^113: exact at every precision used here */
    mpz_clear(z);
}

/* Bounds of a weight become those of a + b·weight/10^10. */
static void enclose_fit(mpfr_t low, mpfr_t high, wide a, wide b) {
    mpfr_t part;
    mpfr_init2(part, mpfr_get_prec(low));
    set_wide(part, b);
    if (b < 0)
        mpfr_swap(low, high);
    mpfr_mul(low, low, part, MPFR_RNDD);
    mpfr_mul(high, high, part, MPFR_RNDU);
    mpfr_div_ui(low, low, 10000000000, MPFR_RNDD);
    mpfr_div_ui(high, high, 10000000000, MPFR_RNDU);
    set_wide(part, a);
    mpfr_add(low, low, part, MPFR_RNDD);
    mpfr_add(high, high, part, MPFR_RNDU);
    mpfr_clear(part);
}

/* The exact fit at a place in units of 10^-28. */
static void exact_fit(term_bounds *exact, fitted_property of, int64_t y, int64_t z, mpfr_prec_t precision) {
    const fit_piece *piece = piece_at(of, y, z);
    wide a = exact_bicubic(piece->a, y, z), b = piece->weighed ? exact_bicubic(piece->b, y, z) : 0;
    transition t = {piece->minus, piece->weighed ? exact_exponent(piece, y, z) : 0, EXACT_EXPONENT_DECIMALS};
    weights_of(exact, t, precision);
    for (int i = 0; i < TERM_COUNTS; i++)
        enclose_fit(exact->low[i], exact->high[i], a, b);
}

/* number·10^zeros */
static void set_scaled(mpz_t out, int64_t number, unsigned zeros) {
    mpz_ui_pow_ui(out, 10, zeros);
    mpz_mul_si(out, out, number);
}

/* -1, 0, 1: what lies from low to high is below, may be at, or is above number·10^zeros. */
static int compare_fit(const mpfr_t low, const mpfr_t high, int64_t number, unsigned zeros) {
    mpz_t bound;
    mpz_init(bound);
    set_scaled(bound, number, zeros);
    int from = mpfr_cmp_z(low, bound), to = mpfr_cmp_z(high, bound);
    mpz_clear(bound);
    return from > 0 ? 1 : to < 0 ? -1 : 0;
}

static int64_t whole_millionths(const mpfr_t fit) {
    mpz_t whole, scale;
    mpz_inits(whole, scale, NULL);
    mpfr_get_z(whole, fit, MPFR_RNDD);
    mpz_ui_pow_ui(scale, 10, MILLIONTH_ZEROS);
    mpz_fdiv_q(whole, whole, scale);
    int64_t k = mpz_get_si(whole);
    mpz_clears(whole, scale, NULL);
    return k;
}

/* What is claimed. */
typedef struct {
    int64_t fit, distance;
    ratio_logarithm *kelvin; /* null: nothing of a temperature */
} claim;

/* Null: holds. *open is set where bounds that are farther from the value than needed leave it undecided. */
static const char *claim_at(const mpfr_t low, const mpfr_t high, const claim *c, bool last, bool *open) {
    int under = compare_fit(low, high, c->fit - c->distance, UNIT_ZEROS);
    int over = compare_fit(low, high, c->fit + c->distance, UNIT_ZEROS);
    if (under < 0 || over > 0)
        return "the fit is too far from the exact one";
    int64_t k = whole_millionths(high);
    bool parted = c->kelvin != NULL && whole_millionths(low) != k;
    *open = !mpfr_equal_p(low, high) && !last && (under == 0 || over == 0 || parted);
    if (*open || c->kelvin == NULL)
        return NULL;
    if (logarithm_compare(c->kelvin, k - 2) <= 0 || logarithm_compare(c->kelvin, k + 3) >= 0)
        return "temperature is outside demand 3's powers of ten";
    return NULL;
}

const char *fit_claim(fitted_property of, int64_t y, int64_t z, int64_t fit, ratio_logarithm *kelvin) {
    const claim claimed = {fit, distance_allowed(of), kelvin};
    const char *wrong = NULL;
    bool open = true;
    term_bounds exact;
    bounds_init(&exact);
    for (mpfr_prec_t p = FIRST_WEIGHT_PRECISION; open && wrong == NULL; p *= 4) {
        exact_fit(&exact, of, y, z, p);
        open = false;
        for (int i = 0; i < TERM_COUNTS && !open && wrong == NULL; i++)
            wrong = claim_at(exact.low[i], exact.high[i], &claimed, p >= LAST_WEIGHT_PRECISION, &open);
    }
    bounds_clear(&exact);
    return wrong;
}

double fit_distance(fitted_property of, int64_t y, int64_t z, int64_t fit) {
    term_bounds exact;
    mpz_t units;
    bounds_init(&exact);
    mpz_init(units);
    exact_fit(&exact, of, y, z, FIRST_WEIGHT_PRECISION);
    set_scaled(units, fit, UNIT_ZEROS);
    mpfr_z_sub(exact.low[WITHOUT_END], units, exact.low[WITHOUT_END], MPFR_RNDN);
    double distance = mpfr_get_d(exact.low[WITHOUT_END], MPFR_RNDN) / 1e18;
    mpz_clear(units);
    bounds_clear(&exact);
    return distance;
}
