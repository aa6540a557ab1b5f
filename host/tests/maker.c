#include "maker.h"

#include <math.h>
#include <stdbool.h>

#include "reference/answer.h"
#include "reference/pressure.h"

static mistake made;

static const struct {
    const char *name, *kinds;
} table[MISTAKES] = {
    [NO_MISTAKE] = {"nearest choices", "0123"},
    [LOGARITHMS_DOWN] = {"logarithms rounded down", "123"},
    [LOGARITHMS_UP] = {"logarithms rounded up", "123"},
    [WEIGHT_LOWEST] = {"the weight is 1 less than the nearest", "13"},
    [WEIGHT_HIGHEST] = {"the weight is 1 more than the nearest", "13"},
    [TEMPERATURE_LOWEST] = {"the lowest temperature of free answer three", "1"},
    [TEMPERATURE_HIGHEST] = {"the highest temperature of free answer three", "1"},
    [EDGES_APART] = {"the lowest at a strip's lower edge, the highest above", "1"},
    [LOGARITHMS_TOO_LOW] = {"logarithms one below the lowest", "123"},
    [LOGARITHMS_TOO_HIGH] = {"logarithms one above the highest", "123"},
    [WEIGHT_TOO_LOW] = {"the weight is 3 less than the nearest", "13"},
    [WEIGHT_TOO_HIGH] = {"the weight is 3 more than the nearest", "13"},
    [TEMPERATURE_TOO_LOW] = {"the temperature is one below the lowest", "1"},
    [TEMPERATURE_TOO_HIGH] = {"the temperature is one above the highest", "1"},
    [FIT_LIMIT_EXCLUDED] = {"G at its limit is refused", "1"},
    [FIT_LIMIT_PASSED] = {"G one unit above its limit is taken", "1"},
    [WEIGHT_ON_A] = {"the weight goes to A", "13"},
    [WEIGHT_OF_OTHER_SIGN] = {"the weight has the other sign of the exponent", "13"},
    [WEIGHT_STUCK_AT_HALF] = {"the weight is always one half", "13"},
    [SERIES_TOO_SHORT] = {"the series stops after ten terms", "13"},
    [ALL_TOWARD_ZERO] = {"every division goes toward zero", "123"},
    [FRACTION_TOWARD_ZERO] = {"the fraction of W and B goes toward zero", "13"},
    [MUL_BY_TRUNCATED_SUM] = {"mul rounds only once over a whole part", "123"},
    [TERMS_SWAPPED] = {"Y and Z change places in a part", "123"},
    [Z_IS_SUM] = {"Z is the sum of X and Y", "1"},
    [Z_FROM_RATIO] = {"Z is taken of a ratio of its own", "1"},
    [NEXT_PIECE] = {"the next piece's polynomials are used", "13"},
    [PIECE_END_EXCLUDED] = {"a piece's upper end belongs to the next", "13"},
    [PERFECT_END_FITTED] = {"the perfect gas ends before its end", "1"},
    [PERFECT_ROUNDED_UP] = {"the perfect gas rounds up", "1"},
    [WINDOW_END_EXCLUDED] = {"the window's ends are refused", "1"},
    [TEMPERATURE_CONSTANT] = {"the temperature is the same for all states", "1"},
    [SIGN_OF_LATER_LISTING] = {"the first number of label 370's B has a minus", "1"},
    [MINUS_TAKEN_AS_PLUS] = {"a minus transition is weighed as a plus one", "3"},
    [MINUS_WEIGHT_WITHOUT_SIGN] = {"a minus transition's weight has lost its sign", "3"},
    [MINUS_WEIGHT_HELD_ABOVE_ZERO] = {"a minus transition's weight is held above 0", "3"},
    [PRESSURE_ROUNDED_UP] = {"the pressure rounds up", "3"},
    [PRESSURE_ROUNDED_TWICE] = {"the product of energy and density is rounded first", "3"},
    [PRESSURE_IN_PASCALS] = {"the pressure is in whole pascals", "3"},
    [PRESSURE_BY_GAMMA] = {"the pressure takes gamma for gamma less 1", "3"},
    [STRIP_EDGE_INCLUDED] = {"a strip's edges belong to the join", "123"},
    [STRIP_LEFT_OUT] = {"there is no join", "123"},
    [STRIP_WIDTHS_EXCHANGED] = {"each strip has the other's width", "123"},
    [JOIN_TOWARD_ZERO] = {"the join rounds toward zero", "123"},
    [JOIN_TO_NEAREST] = {"the join rounds to the nearest", "123"},
    [JOIN_FROM_UPPER_EDGE] = {"the join runs from the upper edge", "123"},
    [JOIN_SHARES_SWAPPED] = {"each edge has the other's share in the join", "123"},
    [JOIN_OF_FITS] = {"the join runs between the fits", "13"},
    [EDGE_TAKES_OWN_Z] = {"an edge takes X minus its own Y for Z", "1"},
    [EDGE_TAKES_OWN_DENSITY] = {"an edge's pressure takes its own density", "3"},
    [EDGE_TAKES_STATES_BAND] = {"both edges take the state's own band", "13"},
    [EDGE_WEIGHT_TWICE] = {"the lower edge's weight is used at both", "13"},
    [EDGE_FIT_TWICE] = {"the lower edge's fit is used at both", "13"},
    [EDGES_SWAPPED] = {"the edges are carried in each other's place", "13"},
    [EDGE_VALUES_LOST] = {"a join carries no values of its edges", "13"},
    [STATES_FIT_CARRIED] = {"a join carries the state's own fit", "13"},
    [LOWER_EDGE_TESTED] = {"13 is tested at the lower edge only", "1"},
    [UPPER_EDGE_TESTED] = {"13 is tested at the upper edge only", "1"},
    [STATES_FIT_TESTED] = {"13 is tested at the state's own Y", "1"},
    [STRIP_TESTED_FIRST] = {"13 comes before 12 in a strip", "1"},
    [PERFECT_GAS_FITTED_IN_STRIP] = {"a perfect gas is fitted and joined in a strip", "1"},
    [PERFECT_GAS_BY_Z_IN_STRIP] = {"a perfect gas goes by Z alone in a strip", "1"},
    [LIMIT_EXCLUDED] = {"a band's limit is refused", "23"},
    [LIMIT_OF_OWN_BAND] = {"a strip tests one limit only", "23"},
    [ENTROPY_END_EXCLUDED] = {"the entropy's perfect gas ends before its end", "2"},
    [BICUBIC_ONE_ROUNDING] = {"a bicubic rounds only at the end", "123"},
    [DENSITY_TESTED_FIRST] = {"the density is tested first", "123"},
    [KIND_TESTED_LAST] = {"the kind is tested last", "0"},
    [RANGE_END_EXCLUDED] = {"the ends of the ranges are refused", "123"},
    [REFUSAL_WITHOUT_LOGS] = {"a refusal 12 or 17 holds no logarithms", "123"},
    [REFUSAL_WITHOUT_FIT] = {"a refusal 13 holds no fit", "1"},
    [REFUSAL_WITHOUT_UPPER_FIT] = {"a refusal 13 of a strip holds one fit", "1"},
    [REFUSAL_WITH_TEMPERATURES] = {"a refusal 13 of a strip holds edge temperatures", "1"},
    [WARNING_AS_12] = {"a warned pressure is refused with 12", "3"},
    [WARNING_WITH_FIT] = {"a warned pressure holds its fit", "3"},
    [REFUSES_ALWAYS] = {"everything is refused with 12 or 17", "123"},
    [REFUSES_NEVER] = {"nothing is refused with 12, 13 or 17", "123"},
};

const char *mistake_name(mistake m) {
    return table[m].name;
}

const char *mistake_kinds(mistake m) {
    return table[m].kinds;
}

static wide divide(wide a, wide b) {
    return made == ALL_TOWARD_ZERO ? a / b : floor_divide(a, b);
}

static wide mul(wide a, int64_t b) {
    return divide(a * b, 1000000);
}

static wide polynomial(const int64_t c[BICUBIC_TERMS], int64_t y, int64_t z) {
    if (made == BICUBIC_ONE_ROUNDING)
        return floor_divide(exact_bicubic(c, y, z), 1000000000000000000);
    int64_t third = made == TERMS_SWAPPED ? y : z, other = made == TERMS_SWAPPED ? z : y;
    wide sum = c[0] + mul(c[1], y) + mul(c[2] + mul(c[3], y), z);
    wide yy = c[4] + mul(c[5], third) + mul(c[6], other), zz = c[7] + mul(c[8], y) + mul(c[9], z);
    if (made == MUL_BY_TRUNCATED_SUM)
        return sum + floor_divide(yy * y * y, 1000000000000) + floor_divide(zz * z * z, 1000000000000);
    return sum + mul(mul(yy, y), y) + mul(mul(zz, z), z);
}

static int64_t logarithm(uint64_t over, uint64_t under) {
    const long double rounding = 1e-9L; /* far more than that of log10l, far less than free answer one leaves */
    long double exact = 1000000.0L * log10l((long double)over / (long double)under);
    int64_t lowest = (int64_t)floorl(exact + rounding), highest = (int64_t)ceill(exact - rounding);
    switch (made) {
    case LOGARITHMS_TOO_LOW:
        return lowest - 1;
    case LOGARITHMS_DOWN:
        return lowest;
    case LOGARITHMS_UP:
        return highest;
    case LOGARITHMS_TOO_HIGH:
        return highest + 1;
    default:
        return llrintl(exact);
    }
}

/* The weight of an exponent that is 0 or more. */
static long double positive_weight(long double q, bool minus) {
    long double sum = expl(q);
    if (made == SERIES_TOO_SHORT) {
        long double term = 1.0L;
        sum = 1.0L;
        for (int j = 1; j <= 10; j++)
            sum += term *= q / j;
    }
    return 1.0L / (minus ? 1.0L - sum : 1.0L + sum);
}

/* The nearest whole weight; where it is that of a minus transition, some mistakes are in the sign. */
static int64_t nearest_by(wide units, bool minus) {
    long double q = (long double)units / 1.0e10L;
    if (made == WEIGHT_STUCK_AT_HALF)
        return 5000000000;
    if (made == WEIGHT_OF_OTHER_SIGN)
        q = -q;
    bool differs = minus && made != MINUS_TAKEN_AS_PLUS;
    int64_t nearest = llrintl(1.0e10L * (q >= 0 ? positive_weight(q, differs) : 1.0L - positive_weight(-q, differs)));
    if (minus && made == MINUS_WEIGHT_WITHOUT_SIGN && nearest < 0)
        return -nearest;
    return minus && made == MINUS_WEIGHT_HELD_ABOVE_ZERO && nearest < 0 ? 0 : nearest;
}

/* Within 0 to 10^10 but for a minus transition. */
static int64_t weight(wide units, bool minus) {
    int64_t nearest = nearest_by(units, minus);
    switch (made) {
    case WEIGHT_TOO_LOW:
        return nearest - 3;
    case WEIGHT_LOWEST:
        return nearest < 1 && !minus ? 0 : nearest - 1;
    case WEIGHT_HIGHEST:
        return nearest > 9999999999 && !minus ? 10000000000 : nearest + 1;
    case WEIGHT_TOO_HIGH:
        return nearest + 3;
    default:
        return nearest;
    }
}

/* Y chooses the band. */
static const fit_piece *chosen_piece(fitted_property of, int64_t y, int64_t z) {
    static fit_piece changed;
    if (made == NEXT_PIECE)
        z += 500000;
    if (made == PIECE_END_EXCLUDED)
        z++;
    const fit_piece *piece = piece_at(of, y, z);
    if (made != SIGN_OF_LATER_LISTING || piece->label != 370)
        return piece;
    changed = *piece;
    changed.b[0] = -changed.b[0];
    return &changed;
}

static long double kelvin_at(int64_t millionths) {
    return (long double)T0 * powl(10.0L, (long double)millionths / 1000000.0L);
}

static int64_t kelvin_of(int64_t fit, mistake choice) {
    int64_t g = (int64_t)floor_divide(fit, 10000);
    switch (choice) {
    case TEMPERATURE_CONSTANT:
        return 3000000000;
    case TEMPERATURE_TOO_LOW:
        return (int64_t)floorl(kelvin_at(g - 1));
    case TEMPERATURE_LOWEST:
        return (int64_t)floorl(kelvin_at(g - 1)) + 1;
    case TEMPERATURE_HIGHEST:
        return (int64_t)ceill(kelvin_at(g + 2)) - 1;
    case TEMPERATURE_TOO_HIGH:
        return (int64_t)ceill(kelvin_at(g + 2));
    default:
        return llrintl(kelvin_at(g));
    }
}

static int64_t weight_at(const fit_piece *piece, int64_t y, int64_t z) {
    const int64_t *c = piece->exponent;
    wide q = c[0] + mul(c[1], y) + mul(c[2], z) + mul(mul(c[3], y), z);
    if (piece->kept != 0)
        q = q > piece->kept ? piece->kept : q < -piece->kept ? -piece->kept : q;
    return piece->weighed ? weight(q, piece->minus) : 0;
}

static eas_edge fit_with(const fit_piece *piece, int64_t y, int64_t z, int64_t weight) {
    wide a = polynomial(piece->a, y, z), b = polynomial(piece->b, y, z);
    wide product = weight * (made == WEIGHT_ON_A ? a : b), one = 10000000000;
    wide share = made == FRACTION_TOWARD_ZERO ? product / one : divide(product, one);
    if (!piece->weighed)
        return (eas_edge){.fit = (int64_t)a};
    return (eas_edge){.fit = (int64_t)(made == WEIGHT_ON_A ? b + share : a + share), .weight = weight};
}

/* A state that is fitted; its answer gets the fits and the value. */
typedef struct {
    fitted_property of;
    uint64_t first, density;
} fitted_state;

static eas_edge fit_at(fitted_property of, int64_t y, int64_t z) {
    const fit_piece *piece = chosen_piece(of, y, z);
    return fit_with(piece, y, z, weight_at(piece, y, z));
}

static eas_answer refused(eas_answer a, uint32_t number) {
    bool bare = (made == REFUSAL_WITHOUT_LOGS && number != 13) || (made == REFUSAL_WITHOUT_FIT && number == 13);
    if (bare)
        return (eas_answer){.number = number};
    a.number = number;
    return a;
}

static eas_answer shown(eas_answer a, int64_t value) {
    a.carries |= EAS_CARRIES_VALUE;
    a.value = value;
    return a;
}

static bool beyond(fitted_property of, eas_edge edge) {
    int64_t limit = HIGHEST_FIT + (made == FIT_LIMIT_PASSED) - (made == FIT_LIMIT_EXCLUDED);
    bool far = of == PRESSURE ? gamma_beyond(edge.fit) : edge.fit < 0 || edge.fit > limit;
    return far && made != REFUSES_NEVER;
}

/* The temperature of a fit; of one that is far beyond the limits, that of a nearer one. */
static int64_t kelvin_within(eas_edge edge, mistake choice) {
    return kelvin_of(edge.fit < 0 ? 0 : edge.fit > 20000000000 ? 20000000000 : edge.fit, choice);
}

static int64_t pressure_by(uint64_t energy, uint64_t density, int64_t gamma) {
    const wide one = 10000000000, scale = one * 100000000;
    wide product = (wide)energy * density, over = gamma - (made == PRESSURE_BY_GAMMA ? 0 : one);
    if (made == PRESSURE_ROUNDED_TWICE)
        return (int64_t)floor_divide(product / 100000000 * over, one);
    wide value = floor_divide(product * over + (made == PRESSURE_ROUNDED_UP ? scale - 1 : 0), scale);
    return (int64_t)(made == PRESSURE_IN_PASCALS ? value / 1000000 : value);
}

/* The value of a fit at a place. */
static int64_t value_by(const fitted_state *s, int64_t y, eas_edge edge, mistake choice) {
    uint64_t density = s->density;
    if (s->of == TEMPERATURE)
        return kelvin_within(edge, choice);
    if (made == EDGE_TAKES_OWN_DENSITY)
        density = (uint64_t)llroundl((long double)D0 * powl(10.0L, (long double)y / 1000000.0L));
    return pressure_by(s->first, density, edge.fit);
}

static bool strip_for(int64_t y, density_strip *strip) {
    int64_t shift = y < -2500000 ? 4000000 : -4000000;
    switch (made) {
    case STRIP_LEFT_OUT:
        return false;
    case STRIP_EDGE_INCLUDED:
        return strip_of(y - 1, strip) || strip_of(y, strip) || strip_of(y + 1, strip);
    case STRIP_WIDTHS_EXCHANGED:
        if (!strip_of(y + shift, strip))
            return false;
        strip->lower -= shift;
        strip->upper -= shift;
        return true;
    default:
        return strip_of(y, strip);
    }
}

static wide join(density_strip strip, int64_t y, wide low, wide high) {
    wide width = strip.upper - strip.lower, rise = (high - low) * (y - strip.lower),
         fall = (high - low) * (strip.upper - y);
    switch (made) {
    case JOIN_TOWARD_ZERO:
        return low + rise / width;
    case JOIN_TO_NEAREST:
        return low + floor_divide(2 * rise + width, 2 * width);
    case JOIN_FROM_UPPER_EDGE:
        return high - floor_divide(fall, width);
    case JOIN_SHARES_SWAPPED:
        return low + floor_divide(fall, width);
    default:
        return low + divide(rise, width);
    }
}

static eas_edge edge_at(fitted_property of, const eas_answer *a, int64_t y) {
    int64_t z = made == EDGE_TAKES_OWN_Z ? a->x - y : a->z;
    const fit_piece *piece = chosen_piece(of, made == EDGE_TAKES_STATES_BAND ? a->y : y, z);
    bool twice = made == EDGE_WEIGHT_TWICE && piece->weighed && y > a->y;
    return fit_with(piece, y, z, twice ? a->low.weight : weight_at(piece, y, z));
}

static bool edges_beyond(fitted_property of, const eas_answer *a) {
    switch (made) {
    case LOWER_EDGE_TESTED:
        return beyond(of, a->low);
    case UPPER_EDGE_TESTED:
        return beyond(of, a->high);
    case STATES_FIT_TESTED:
        return beyond(of, fit_at(of, a->y, a->z));
    default:
        return beyond(of, a->low) || beyond(of, a->high);
    }
}

static uint32_t fit_refusal(fitted_property of) {
    return of == PRESSURE ? 17 : 13;
}

static eas_answer refused_strip(fitted_property of, eas_answer a) {
    if (made != REFUSAL_WITH_TEMPERATURES)
        a.low.value = a.high.value = 0;
    if (made == REFUSAL_WITHOUT_UPPER_FIT) {
        a.high = (eas_edge){0};
        a.carries ^= EAS_CARRIES_HIGH;
    }
    return refused(a, fit_refusal(of));
}

/* A join that carries its edges otherwise than it should. */
static eas_answer carried_otherwise(fitted_property of, eas_answer a) {
    eas_edge low = a.low;
    switch (made) {
    case EDGES_SWAPPED:
        a.low = a.high;
        a.high = low;
        return a;
    case EDGE_VALUES_LOST:
        a.low.value = a.high.value = 0;
        return a;
    case STATES_FIT_CARRIED:
        a.low = fit_at(of, a.y, a.z);
        a.high = (eas_edge){0};
        a.carries ^= EAS_CARRIES_HIGH;
        return a;
    default:
        return a;
    }
}

static eas_answer joined(const fitted_state *s, eas_answer a, density_strip strip) {
    a.low = edge_at(s->of, &a, strip.lower);
    a.high = made == EDGE_FIT_TWICE ? a.low : edge_at(s->of, &a, strip.upper);
    a.low.value = value_by(s, strip.lower, a.low, made == EDGES_APART ? TEMPERATURE_LOWEST : made);
    a.high.value = value_by(s, strip.upper, a.high, made == EDGES_APART ? TEMPERATURE_HIGHEST : made);
    a.carries |= EAS_CARRIES_LOW | EAS_CARRIES_HIGH;
    if (edges_beyond(s->of, &a))
        return refused_strip(s->of, a);
    wide value = join(strip, a.y, a.low.value, a.high.value);
    if (made == JOIN_OF_FITS)
        value = value_by(s, a.y, (eas_edge){.fit = (int64_t)join(strip, a.y, a.low.fit, a.high.fit)}, made);
    return shown(carried_otherwise(s->of, a), (int64_t)value);
}

static eas_answer fitted_answer(const fitted_state *s, eas_answer a) {
    density_strip strip;
    if (strip_for(a.y, &strip))
        return joined(s, a, strip);
    a.low = fit_at(s->of, a.y, a.z);
    a.carries |= EAS_CARRIES_LOW;
    return beyond(s->of, a.low) ? refused(a, fit_refusal(s->of)) : shown(a, value_by(s, a.y, a.low, made));
}

/* The perfect gas's temperature; in a strip, Z gives the same at both edges. */
static int64_t perfect_kelvin(uint64_t p, uint64_t d, int64_t z, bool inside) {
    const wide unit = 10000000000000, gas = 28706;
    wide over = p * unit, under = d * gas, standard = P0 * unit / (D0 * gas);
    if (made == PERFECT_GAS_BY_Z_IN_STRIP && inside)
        return (int64_t)floorl((long double)standard * powl(10.0L, (long double)z / 1000000.0L));
    return (int64_t)((over + (made == PERFECT_ROUNDED_UP ? under - 1 : 0)) / under);
}

static eas_answer temperature(uint64_t p, uint64_t d) {
    const fitted_state s = {TEMPERATURE, p, d};
    eas_answer a = {.letter = 'T', .carries = EAS_CARRIES_LOGS | EAS_CARRIES_X};
    density_strip strip;
    a.x = logarithm(p, P0);
    a.y = logarithm(d, D0);
    a.z = made == Z_IS_SUM ? a.x + a.y : a.x - a.y;
    if (made == Z_FROM_RATIO)
        a.z =
            llrintl(1000000.0L * (log10l((long double)p / (long double)P0) - log10l((long double)d / (long double)D0)));
    int64_t end = made == WINDOW_END_EXCLUDED ? 1 : 0;
    bool inside = strip_of(a.y, &strip), outside_window = a.z < LOWEST_Z + end || a.z > HIGHEST_Z - end;
    if (made == STRIP_TESTED_FIRST && inside && a.z > HIGHEST_Z)
        return fitted_answer(&s, a);
    if (made == REFUSES_ALWAYS || (made != REFUSES_NEVER && outside_window))
        return refused(a, 12);
    if (a.z > PERFECT_LIMIT - (made == PERFECT_END_FITTED ? 1 : 0) || (made == PERFECT_GAS_FITTED_IN_STRIP && inside))
        return fitted_answer(&s, a);
    return shown(a, perfect_kelvin(p, d, a.z, inside));
}

static wide plain_entropy(int64_t y, int64_t z) {
    if (z <= ENTROPY_PERFECT_LIMIT - (made == ENTROPY_END_EXCLUDED ? 1 : 0))
        return 67792004 + divide((5 * (wide)(z - 400000) - 2 * (wide)y) * 28706 * 2302585, 20000000000);
    return divide(28706 * polynomial(entropy_coefficients(band_of(y)), y, z), 100000000);
}

/* Of an entropy or a pressure. */
static bool above_limit(uint8_t kind, int64_t y, int64_t z) {
    int64_t limit = kind == ENTROPY_KIND ? entropy_limit(band_of(y)) : fit_limit(PRESSURE, y);
    return z > limit - (made == LIMIT_EXCLUDED ? 1 : 0);
}

/* The logarithms of an energy and a density. */
static eas_answer by_energy(char letter, uint64_t e, uint64_t d) {
    return (eas_answer){
        .letter = (uint32_t)letter, .carries = EAS_CARRIES_LOGS, .y = logarithm(d, D0), .z = logarithm(e, E0)};
}

/* Whether the limits refuse; in a strip, those of both edges count. */
static bool is_above(uint8_t kind, const eas_answer *a) {
    density_strip strip;
    bool above = above_limit(kind, a->y, a->z);
    if (strip_for(a->y, &strip) && made != LIMIT_OF_OWN_BAND)
        above = above_limit(kind, strip.lower, a->z) || above_limit(kind, strip.upper, a->z);
    return made == REFUSES_ALWAYS || (above && made != REFUSES_NEVER);
}

static eas_answer entropy(uint64_t e, uint64_t d) {
    eas_answer a = by_energy('S', e, d);
    density_strip strip;
    if (is_above(ENTROPY_KIND, &a))
        return refused(a, 12);
    if (!strip_for(a.y, &strip))
        return shown(a, (int64_t)plain_entropy(a.y, a.z));
    return shown(a, (int64_t)join(strip, a.y, plain_entropy(strip.lower, a.z), plain_entropy(strip.upper, a.z)));
}

static eas_answer pressure(uint64_t e, uint64_t d) {
    const fitted_state s = {PRESSURE, e, d};
    eas_answer a = by_energy('P', e, d);
    if (!is_above(PRESSURE_KIND, &a))
        return fitted_answer(&s, a);
    if (made == WARNING_WITH_FIT) {
        a.low = fit_at(PRESSURE, a.y, a.z);
        a.carries |= EAS_CARRIES_LOW;
    }
    return refused(a, made == WARNING_AS_12 ? 12 : 17);
}

static bool out_of_range(uint64_t number, uint64_t low, uint64_t high) {
    uint64_t end = made == RANGE_END_EXCLUDED ? 1 : 0;
    return number < low + end || number > high - end;
}

eas_answer make_answer(mistake m, uint8_t kind, uint64_t first, uint64_t second) {
    made = m;
    bool known = kind_known(kind), has_energy = kind == ENTROPY_KIND || kind == PRESSURE_KIND;
    bool bad_first = has_energy ? out_of_range(first, E_MIN, E_MAX) : out_of_range(first, P_MIN, P_MAX);
    bool bad_second = out_of_range(second, D_MIN, D_MAX);
    if (!known && made != KIND_TESTED_LAST)
        return (eas_answer){.number = 6};
    if (bad_second && made == DENSITY_TESTED_FIRST)
        return (eas_answer){.number = 11};
    if (bad_first)
        return (eas_answer){.number = 10};
    if (bad_second)
        return (eas_answer){.number = 11};
    if (!known)
        return (eas_answer){.number = 6};
    return kind == TEMPERATURE_KIND ? temperature(first, second)
           : kind == ENTROPY_KIND   ? entropy(first, second)
                                    : pressure(first, second);
}
