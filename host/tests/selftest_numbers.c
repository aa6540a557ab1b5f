/* Logarithms, weights, fits and demand 3's distances, against whole numbers and fractions. */
#include <inttypes.h>
#include <math.h>
#include <stddef.h>

#include "maker.h"
#include "reference/answer.h"
#include "reference/claim.h"
#include "reference/entropy.h"
#include "reference/pressure.h"
#include "reference/weight.h"
#include "selftest.h"
#include "states.h"
#include "tally.h"

/* Answers that document 01 prints: proof table and listing. */
static void test_known_values(void) {
    tally_case("known values", 0);
    static const struct {
        int64_t y, z, fit;
    } fits[] = {{0, 500000, 4961733650}, {-1000000, 500000, 4943121249}, {-5000000, 500000, 4949976875}};
    for (size_t i = 0; i < LENGTH(fits); i++)
        tally_check(fit_near(TEMPERATURE, fits[i].y, fits[i].z) == fits[i].fit, "fit %zu", i);
    tally_check(band_of(-4500000) == LOW_BAND && band_of(-4499999) == MIDDLE_BAND, "lower density edge");
    tally_check(band_of(-500000) == MIDDLE_BAND && band_of(-499999) == HIGH_BAND, "upper density edge");
    tally_check(entropy_value(0, 1000000) == 77879435, "entropy at ten times E0");
    tally_check(!entropy_beyond(-4525000, 3500000) && entropy_beyond(-4524999, 3500000), "limit at a strip's edge");
    eas_answer nose = {.letter = 'T', .carries = 19, .value = 273213936};
    eas_answer forty_two = {.letter = 'S', .carries = 17, .value = 61182203};
    tally_check(judge_answer(1, P0, D0, &nose) == NULL, "first listing value");
    tally_check(judge_answer(2, E0, D0, &forty_two) == NULL, "second listing value");
    eas_answer hot = make_answer(NO_MISTAKE, 1, 10133000000000, 12920000000);
    tally_check(hot.number == 13 && judge_answer(1, 10133000000000, 12920000000, &hot) == NULL, "third listing state");
}

/* Joined temperatures and refusals of a strip, worked out from document 01 in Python's whole numbers: a rising line, a
 * falling one between pieces of different numbers, one without weights, 13 by each edge and by both. */
static void test_known_joins(void) {
    static const struct {
        uint64_t pressure, density;
        int64_t x, y, value;
        eas_edge low, high;
    } known[] = {
        /* clang-format off */
        {1163424065, 4180830, -1940000, -4490000, 22098838353,
         {18909244802, 9999999926, 21248349680}, {19150738688, 10000000000, 22463333499}},
        {837024254307, 40575372325, 917000, -503000, 5806562415,
         {13278451391, 0, 5810937506}, {13262072411, 10000000000, 5789062054}},
        {12756691, 4085663, -3900000, -4500000, 1084230807,
         {5985381782, 0, 1083775190}, {5989039273, 0, 1084686425}},
        {12786098408007, 40950811623, 2101000, -499000, 0, {20287145933, 10000000000, 0}, {16689829329, 10000000000, 0}},
        {1398743375, 3992662, -1860000, -4510000, 0, {19385666312, 10000000000, 0}, {20001394228, 10000000000, 0}},
        {1569415880, 3992662, -1810000, -4510000, 0, {19628953940, 10000000000, 0}, {20421596503, 10000000000, 0}},
        /* clang-format on */
    };
    for (size_t i = 0; i < LENGTH(known); i++) {
        tally_case("known joins", i);
        eas_answer a = {.letter = 'T', .carries = 15, .x = known[i].x, .y = known[i].y, .z = known[i].x - known[i].y};
        a.low = known[i].low;
        a.high = known[i].high;
        a.value = known[i].value;
        a.number = a.value == 0 ? 13 : 0;
        a.carries += a.value == 0 ? 0 : EAS_CARRIES_VALUE;
        const char *wrong = judge_answer(1, known[i].pressure, known[i].density, &a);
        tally_check(wrong == NULL, "%s", wrong);
    }
}

/* Pressures worked out from request 3 in Python's whole numbers: each piece, among them the minus transition and a kept
 * exponent; joins of constants, of a minus and a plus transition, of pieces of different numbers. */
static const struct {
    uint64_t energy, density;
    int64_t y, z, value;
    eas_edge low, high;
} pressures[] = {
    /* clang-format off */
    {247949132, 129200, -6000000, 500000, 127018, {13965000000, 0, 0}, {0}},
    {2451108814, 102627, -6100001, 1495000, 615333, {12446166971, -40468990, 0}, {0}},
    {3121494627, 1292000, -5000000, 1600000, 8897606, {12206216279, 9999999914, 0}, {0}},
    {78408400000, 1292000, -5000000, 3000000, 96393262, {10951528002, 9999999841, 0}, {0}},
    {175534542521, 1292000, -5000000, 3350000, 284084286, {11252627974, 9996745481, 0}, {0}},
    {384027735806, 1292000, -5000000, 3690000, 576943529, {11162808511, 0, 0}, {0}},
    {1564453257, 1292000000, -2000000, 1300000, 6936144280, {13431571190, 2314752165, 0}, {0}},
    {7840840000, 1292000000, -2000000, 2000000, 20092826735, {11983425689, 9760400515, 0}, {0}},
    {31214946272, 1292000000, -2000000, 2600000, 50811548881, {11259903633, 343746018, 0}, {0}},
    {156445325697, 1292000000, -2000000, 3300000, 301503576078, {11491651476, 9548250586, 0}, {0}},
    {78408400, 129200000000, 0, 0, 40399896736, {13988000000, 0, 0}, {0}},
    {784084000, 162653163204, 100000, 1000000, 483159182694, {13788481166, 0, 0}, {0}},
    {15644532570, 162653163204, 100000, 2300000, 4840169261645, {11902109190, 10000000000, 0}, {0}},
    {19695299608, 102627207926377, 2900000, 2400000, 4782803553380369, {12366232624, 0, 0}, {0}},
    {62282005960, 129200000000000, 3000000, 2900000, 20259667278798388, {12517718687, 13924056, 0}, {0}},
    {7840840, 40950811623, -499000, -1000000, 1279474497,
     {13980000000, 0, 1277933271}, {13988000000, 0, 1280501982}},
    {2423051204, 4180830, -4490000, 1490000, 27081810,
     {12669832093, -925528771, 27046374}, {12674829356, 6681877722, 27096998}},
    {94267630695, 4085663, -4500000, 3080000, 373313456,
     {10969112779, 0, 373249688}, {10969443918, 51935, 373377225}},
    {15288419532, 40575372325, -503000, 2290000, 1117670368720,
     {11801161954, 0, 1117320765365}, {11803979821, 10000000000, 1119068782142}},
    /* clang-format on */
};

static void test_known_pressures(void) {
    for (size_t i = 0; i < LENGTH(pressures); i++) {
        tally_case("known pressures", i);
        eas_answer a = {
            .letter = 'P', .carries = 21, .y = pressures[i].y, .z = pressures[i].z, .value = pressures[i].value};
        a.low = pressures[i].low;
        a.high = pressures[i].high;
        a.carries += a.high.fit == 0 ? 0 : EAS_CARRIES_HIGH;
        const char *wrong = judge_answer(3, pressures[i].energy, pressures[i].density, &a);
        tally_check(wrong == NULL, "%s", wrong);
    }
}

/* The bounds of request 3 that no state comes near, and its limits, in a strip those of both edges. */
static void test_pressure_limits(void) {
    tally_case("pressure limits", 0);
    tally_check(gamma_beyond(10100000000) && !gamma_beyond(10100000001), "gamma of 1.01");
    tally_check(!gamma_beyond(19999999999) && gamma_beyond(20000000000), "gamma of 2");
    for (wide side = -1; side <= 1; side += 2)
        tally_check(exponent_near_zero(side * 499999999) && !exponent_near_zero(side * 500000000), "0.05 from zero");
    tally_check(exponent_near_zero(0), "an exponent of zero");
    static const struct {
        int64_t y, limit;
    } limits[] = {{-7000000, 3690000}, {-4525000, 3690000}, {-4524999, 3400000}, {-4475001, 3400000},
                  {-4475000, 3400000}, {-505000, 3400000},  {-504999, 2900000},  {-495001, 2900000},
                  {-495000, 2900000},  {3000000, 2900000}};
    for (size_t i = 0; i < LENGTH(limits); i++)
        tally_check(!pressure_warned(limits[i].y, limits[i].limit) && pressure_warned(limits[i].y, limits[i].limit + 1),
                    "limit at Y %" PRId64, limits[i].y);
}

/* 10^low < over^power < 10^high in whole numbers; the power is a million for a denominator of 1. */
static bool power_between(unsigned long over, int64_t low, int64_t high) {
    mpz_t power, below, above;
    mpz_inits(power, below, above, NULL);
    mpz_ui_pow_ui(power, over, 1000000);
    mpz_ui_pow_ui(below, 10, (unsigned long)low);
    mpz_ui_pow_ui(above, 10, (unsigned long)high);
    bool between = mpz_cmp(below, power) < 0 && mpz_cmp(power, above) < 0;
    mpz_clears(power, below, above, NULL);
    return between;
}

static void test_logarithms(void) {
    ratio_logarithm l;
    logarithm_init(&l);
    logarithm_of(&l, 3, 1);
    for (int64_t taken = 477118; taken <= 477125; taken++) {
        tally_case("logarithm of 3", (uint64_t)taken);
        tally_check(logarithm_allowed(&l, taken) == power_between(3, taken - 1, taken + 1), "against whole powers");
    }
    for (int64_t tens = -7; tens <= 3; tens++) {
        uint64_t d = D_MIN;
        for (int64_t i = -7; i < tens; i++)
            d *= 10;
        logarithm_of(&l, d, D0);
        for (int64_t off = -3; off <= 3; off++) {
            tally_case("power of ten", (uint64_t)(tens + 7));
            tally_check(logarithm_allowed(&l, tens * 1000000 + off) == (off == 0), "off by %" PRId64, off);
        }
        tally_check(logarithm_compare(&l, tens * 1000000) == 0, "equality");
    }
    logarithm_of(&l, D0 + 1, D0);
    tally_check(logarithm_compare(&l, 0) == 1, "just above a power of ten");
    logarithm_of(&l, UINT64_MAX - 1, UINT64_MAX);
    tally_check(logarithm_compare(&l, 0) == -1, "just below a power of ten");
    tally_check(!logarithm_allowed(&l, INT64_MIN) && !logarithm_allowed(&l, INT64_MAX), "absurd logarithms");
    logarithm_clear(&l);
}

/* 10^10 times the ideal weight as a fraction. */
static void exact_weight(mpq_t out, transition t, unsigned terms) {
    mpq_t term, factor;
    mpq_inits(term, factor, NULL);
    mpq_set_ui(term, 1, 1);
    mpq_set_ui(out, 1, 1);
    for (unsigned j = 1; j <= terms; j++) {
        mpq_set_ui(factor, (unsigned long)(t.q < 0 ? -t.q : t.q), 10000000000);
        mpz_mul_ui(mpq_denref(factor), mpq_denref(factor), j);
        mpq_canonicalize(factor);
        mpq_mul(term, term, factor);
        mpq_add(out, out, term);
    }
    mpq_set_ui(factor, 1, 1);
    if (t.minus)
        mpq_neg(out, out);
    mpq_add(out, factor, out);
    mpq_set_ui(factor, 10000000000, 1);
    mpq_div(out, factor, out);
    if (t.q < 0)
        mpq_sub(out, factor, out);
    mpq_clears(term, factor, NULL);
}

/* The weights within a tolerance, by the exact weight rounded down. */
static void test_weights_within(transition t, int64_t below, bool is_whole, int64_t tolerance) {
    weight_range range = weights_within(t, tolerance), right = {below + !is_whole - tolerance, below + tolerance};
    if (!t.minus && right.least < 0)
        right.least = 0;
    if (!t.minus && right.most > 10000000000)
        right.most = 10000000000;
    tally_check(range.least == right.least && range.most == right.most, "within %" PRId64 ": %" PRId64 " to %" PRId64,
                tolerance, range.least, range.most);
}

/* Free answer two at its ends, by the exact weight for 400 terms. */
static void test_tolerance(transition t, const mpq_t exact) {
    mpz_t whole;
    mpz_init(whole);
    mpz_fdiv_q(whole, mpq_numref(exact), mpq_denref(exact));
    int64_t q = (int64_t)t.q, below = mpz_get_si(whole);
    bool is_whole = mpz_cmp_ui(mpq_denref(exact), 1) == 0;
    tally_check(weight_allowed(below - 2, t) == is_whole, "2 below, q %" PRId64, q);
    tally_check(weight_allowed(below - 1, t) == (t.minus || below >= 1), "1 below, q %" PRId64, q);
    tally_check(weight_allowed(below + 2, t) == (t.minus || below + 2 <= 10000000000), "2 above, q %" PRId64, q);
    tally_check(!weight_allowed(below + 3, t), "3 above, q %" PRId64, q);
    test_weights_within(t, below, is_whole, 2);
    test_weights_within(t, below, is_whole, 10);
    mpz_clear(whole);
}

static void test_weight(bool minus, int64_t q) {
    static const unsigned terms[] = {[TERMS_128] = 128, [TERMS_400] = 400};
    const transition t = {minus, q, EXPONENT_DECIMALS};
    term_bounds w;
    mpq_t exact;
    bounds_init(&w);
    mpq_init(exact);
    for (int i = 0; i < 2; i++) {
        exact_weight(exact, t, terms[i]);
        for (mpfr_prec_t p = FIRST_WEIGHT_PRECISION; p <= 16 * (mpfr_prec_t)FIRST_WEIGHT_PRECISION; p *= 4) {
            weights_of(&w, t, p);
            tally_check(mpfr_cmp_q(w.low[i], exact) <= 0 && mpfr_cmp_q(w.high[i], exact) >= 0,
                        "bounds of %u terms at %d bits, q %" PRId64, terms[i], (int)p, q);
        }
    }
    test_tolerance(t, exact);
    bounds_clear(&w);
    mpq_clear(exact);
}

/* The exponents of a minus transition begin at 0.05. */
static void test_weights(void) {
    static const int64_t exponents[] = {0,           1,           10,          500000000,    9999999999,   10000000000,
                                        12345678901, 22091900000, 50000000000, 119999999999, 240000000000, 300000000000,
                                        999999999999};
    for (size_t i = 0; i < 2 * LENGTH(exponents); i++) {
        bool minus = i % 2 != 0;
        int64_t q = exponents[i / 2];
        tally_case(minus ? "minus weight" : "weight", i / 2);
        if (minus && exponent_near_zero(q))
            continue;
        test_weight(minus, q);
        test_weight(minus, -q);
    }
    const transition large = {false, 999999999999, EXPONENT_DECIMALS},
                     small = {false, -999999999999, EXPONENT_DECIMALS};
    tally_check(!weight_allowed(-1, large) && !weight_allowed(10000000001, small), "outside 0 to 10^10");
}

/* Demand 3's own bounds, which the stricter rules of an answer would hide. A fit's distance: by the nearest weight it
 * is below 200 units; the last fit to either side that is near enough is taken, the next is not. */
static void test_distance_claim(fitted_property of, int64_t y, int64_t z) {
    static const double ends[FITTED] = {[TEMPERATURE] = 4000, [PRESSURE] = 100000};
    int64_t fit = fit_near(of, y, z);
    double distance = fit_distance(of, y, z, fit);
    tally_check(fabs(distance) < 200, "a fit by the nearest weight is off by %f", distance);
    for (int side = -1; side <= 1; side += 2) {
        int64_t last = (int64_t)floor(ends[of] - side * distance);
        tally_check(fit_claim(of, y, z, fit + side * last, NULL) == NULL, "fit at %d end", side);
        tally_check(fit_claim(of, y, z, fit + side * (last + 1), NULL) != NULL, "fit beyond %d end", side);
    }
}

/* And the temperature of a fit. */
static void test_kelvin_claim(int64_t y, int64_t z, int64_t fit, int64_t value) {
    ratio_logarithm kelvin;
    logarithm_init(&kelvin);
    logarithm_of(&kelvin, (uint64_t)value, T0);
    tally_check(fit_claim(TEMPERATURE, y, z, fit, &kelvin) == NULL, "right claim");
    logarithm_of(&kelvin, (uint64_t)(value + value / 100000), T0);
    tally_check(fit_claim(TEMPERATURE, y, z, fit, &kelvin) != NULL, "temperature too high");
    logarithm_of(&kelvin, (uint64_t)(value - value / 100000), T0);
    tally_check(fit_claim(TEMPERATURE, y, z, fit, &kelvin) != NULL, "temperature too low");
    logarithm_clear(&kelvin);
}

/* A joined entropy is rounded down three times, at both edges and on the line. */
static void test_entropy_claim(int64_t y, int64_t z, bool joined) {
    int64_t value = (int64_t)entropy_value(y, z);
    tally_check(entropy_near_exact(value, y, z), "right entropy");
    tally_check(!entropy_near_exact(value + (joined ? 6 : 4), y, z), "entropy too high");
    tally_check(!entropy_near_exact(value - 5, y, z), "entropy too low");
}

/* A column of the plane; in a strip, the claims of both edges. */
static void test_claims(int64_t y) {
    density_strip strip;
    bool joined = strip_of(y, &strip);
    for (int64_t z = 260000; z < 3000000; z += 170000) {
        tally_case("claims", (uint64_t)(z + 1000000000 * (y + 7000000)));
        air_state s = state_near(1, y, z);
        eas_answer a = make_answer(NO_MISTAKE, 1, s.first, s.second);
        if (a.number != 0)
            continue;
        test_kelvin_claim(joined ? strip.lower : a.y, a.z, a.low.fit, joined ? a.low.value : a.value);
        if (joined)
            test_kelvin_claim(strip.upper, a.z, a.high.fit, a.high.value);
        test_entropy_claim(a.y, a.z, joined);
    }
    for (int i = 0; i < FITTED; i++) {
        fitted_property of = (fitted_property)i;
        for (int64_t z = fit_start(of) + 10000; z <= fit_limit(of, joined ? strip.upper : y); z += 90000) {
            tally_case("claims on distances", (uint64_t)(z + 1000000000 * (y + 7000000)));
            test_distance_claim(of, joined ? strip.lower : y, z);
            if (joined)
                test_distance_claim(of, strip.upper, z);
        }
    }
}

void test_numbers(void) {
    test_known_values();
    test_known_joins();
    test_known_pressures();
    test_pressure_limits();
    test_logarithms();
    test_weights();
    for (int64_t y = -6900000; y < 3000000; y += 330000)
        test_claims(y);
    for (int i = 0; i < STRIPS; i++)
        test_claims((density_strips[i].lower + density_strips[i].upper) / 2);
}
