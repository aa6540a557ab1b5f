/* Method: the free values of an answer are checked by their own rules and taken over; everything else is worked out
 * from them, and the whole answer must equal the result field by field. */
#include "answer.h"

#include <stddef.h>

#include "claim.h"
#include "entropy.h"
#include "logarithm.h"
#include "pressure.h"
#include "weight.h"

const char *answers_differ(const eas_answer *a, const eas_answer *b) {
    if (a->number != b->number)
        return "number";
    if (a->letter != b->letter)
        return "letter";
    if (a->carries != b->carries)
        return "carries";
    if (a->x != b->x)
        return "x";
    if (a->y != b->y)
        return "y";
    if (a->z != b->z)
        return "z";
    if (a->value != b->value)
        return "value";
    if (a->low.fit != b->low.fit)
        return "low.fit";
    if (a->low.weight != b->low.weight)
        return "low.weight";
    if (a->low.value != b->low.value)
        return "low.value";
    if (a->high.fit != b->high.fit)
        return "high.fit";
    if (a->high.weight != b->high.weight)
        return "high.weight";
    if (a->high.value != b->high.value)
        return "high.value";
    return NULL;
}

static const char *judge_refusal(uint32_t number, const eas_answer *answer) {
    eas_answer expected = {.number = number};
    return answers_differ(&expected, answer);
}

static bool taken(uint64_t over, uint64_t under, int64_t logarithm) {
    ratio_logarithm l;
    logarithm_init(&l);
    logarithm_of(&l, over, under);
    bool allowed = logarithm_allowed(&l, logarithm);
    logarithm_clear(&l);
    return allowed;
}

bool fit_beyond(fitted_property of, int64_t fit) {
    return of == PRESSURE ? gamma_beyond(fit) : fit < 0 || fit > HIGHEST_FIT;
}

/* A state whose property is fitted, and the refusal of a fit beyond its limits. */
typedef struct {
    fitted_property of;
    uint64_t first, density;
    uint32_t refusal;
} fitted_state;

/* The fit at a place by the weight that the answer carries for it, which must be allowed. */
static const char *judge_place(fitted_property of, eas_edge *expected, int64_t y, int64_t z, const eas_edge *carried) {
    const fit_piece *piece = piece_at(of, y, z);
    transition t = {piece->minus, exponent(piece, y, z), EXPONENT_DECIMALS};
    if (piece->weighed && !weight_allowed(carried->weight, t))
        return "weight against free answer two";
    expected->weight = piece->weighed ? carried->weight : 0;
    expected->fit = (int64_t)fitted(piece, y, z, expected->weight);
    return NULL;
}

/* Free answer three and demand 3 on the temperature of the fit at a place. */
static const char *judge_kelvin(int64_t y, int64_t z, int64_t fit, int64_t value) {
    if (value <= 0)
        return "temperature not above 0";
    int64_t g = (int64_t)floor_divide(fit, 10000);
    const char *wrong = NULL;
    ratio_logarithm kelvin;
    logarithm_init(&kelvin);
    logarithm_of(&kelvin, (uint64_t)value, T0);
    if (logarithm_compare(&kelvin, g - 1) <= 0 || logarithm_compare(&kelvin, g + 2) >= 0)
        wrong = "temperature against free answer three";
    else
        wrong = fit_claim(TEMPERATURE, y, z, fit, &kelvin);
    logarithm_clear(&kelvin);
    return wrong;
}

/* The value of a fit: a temperature's is free and taken over, a pressure's is fixed. */
static int64_t value_of(const fitted_state *s, int64_t fit, int64_t carried) {
    return s->of == TEMPERATURE ? carried : (int64_t)pressure_value(s->first, s->density, fit);
}

/* What is claimed of a fit at a place and of its value. */
static const char *judge_claims(fitted_property of, int64_t y, int64_t z, int64_t fit, int64_t value) {
    return of == TEMPERATURE ? judge_kelvin(y, z, fit, value) : fit_claim(of, y, z, fit, NULL);
}

/* The whole answer of a fit beyond its limits; expected holds the logarithms and every fit. */
static const char *judge_beyond(uint32_t number, eas_answer *expected, const eas_answer *answer) {
    expected->number = number;
    return answers_differ(expected, answer);
}

/* A fitted state outside the strips; expected holds the logarithms. */
static const char *judge_single(const fitted_state *s, eas_answer *expected, const eas_answer *answer) {
    const char *wrong = judge_place(s->of, &expected->low, expected->y, expected->z, &answer->low);
    if (wrong != NULL)
        return wrong;
    expected->carries |= EAS_CARRIES_LOW;
    if (fit_beyond(s->of, expected->low.fit))
        return judge_beyond(s->refusal, expected, answer);
    expected->carries |= EAS_CARRIES_VALUE;
    expected->value = value_of(s, expected->low.fit, answer->value);
    wrong = answers_differ(expected, answer);
    return wrong != NULL ? wrong : judge_claims(s->of, expected->y, expected->z, expected->low.fit, expected->value);
}

/* The same inside a strip: two places with the state's Z, each with a value of its own. */
static const char *judge_joined(const fitted_state *s, eas_answer *expected, const density_strip *strip,
                                const eas_answer *answer) {
    const int64_t y[] = {strip->lower, strip->upper}, z = expected->z;
    const eas_edge *const carried[] = {&answer->low, &answer->high};
    eas_edge *const edges[] = {&expected->low, &expected->high};
    const char *wrong = NULL;
    for (int i = 0; i < 2 && wrong == NULL; i++)
        wrong = judge_place(s->of, edges[i], y[i], z, carried[i]);
    if (wrong != NULL)
        return wrong;
    expected->carries |= EAS_CARRIES_LOW | EAS_CARRIES_HIGH;
    if (fit_beyond(s->of, edges[0]->fit) || fit_beyond(s->of, edges[1]->fit))
        return judge_beyond(s->refusal, expected, answer);
    for (int i = 0; i < 2; i++)
        edges[i]->value = value_of(s, edges[i]->fit, carried[i]->value);
    expected->carries |= EAS_CARRIES_VALUE;
    expected->value = (int64_t)straight_line(strip, expected->y, edges[0]->value, edges[1]->value);
    wrong = answers_differ(expected, answer);
    for (int i = 0; i < 2 && wrong == NULL; i++)
        wrong = judge_claims(s->of, y[i], z, edges[i]->fit, edges[i]->value);
    return wrong;
}

static const char *judge_fitted(const fitted_state *s, eas_answer *expected, const eas_answer *answer) {
    density_strip strip;
    return strip_of(expected->y, &strip) ? judge_joined(s, expected, &strip, answer)
                                         : judge_single(s, expected, answer);
}

static const char *judge_temperature(uint64_t pressure, uint64_t density, const eas_answer *answer) {
    if (!taken(pressure, P0, answer->x))
        return "X against free answer one";
    if (!taken(density, D0, answer->y))
        return "Y against free answer one";
    eas_answer expected = {.letter = 'T', .carries = EAS_CARRIES_LOGS | EAS_CARRIES_X};
    expected.x = answer->x;
    expected.y = answer->y;
    expected.z = answer->x - answer->y;
    if (expected.z < LOWEST_Z || expected.z > HIGHEST_Z) {
        expected.number = 12;
        return answers_differ(&expected, answer);
    }
    fitted_state state = {TEMPERATURE, pressure, density, 13};
    if (expected.z > PERFECT_LIMIT)
        return judge_fitted(&state, &expected, answer);
    expected.carries |= EAS_CARRIES_VALUE;
    expected.value = (int64_t)floor_divide((wide)pressure * 10000000000000, (wide)density * 28706);
    return answers_differ(&expected, answer);
}

/* The logarithms of an energy and a density, which must be allowed. */
static const char *judge_energy(uint64_t energy, uint64_t density, eas_answer *expected, const eas_answer *answer) {
    if (!taken(density, D0, answer->y))
        return "Y against free answer one";
    if (!taken(energy, E0, answer->z))
        return "Z against free answer one";
    expected->carries = EAS_CARRIES_LOGS;
    expected->y = answer->y;
    expected->z = answer->z;
    return NULL;
}

static const char *judge_entropy(uint64_t energy, uint64_t density, const eas_answer *answer) {
    eas_answer expected = {.letter = 'S'};
    const char *wrong = judge_energy(energy, density, &expected, answer);
    if (wrong != NULL)
        return wrong;
    if (entropy_beyond(expected.y, expected.z)) {
        expected.number = 12;
        return answers_differ(&expected, answer);
    }
    expected.carries |= EAS_CARRIES_VALUE;
    expected.value = (int64_t)entropy_value(expected.y, expected.z);
    wrong = answers_differ(&expected, answer);
    if (wrong == NULL && !entropy_near_exact(answer->value, answer->y, answer->z))
        return "entropy is over 3 from the exact one";
    return wrong;
}

static const char *judge_pressure(uint64_t energy, uint64_t density, const eas_answer *answer) {
    fitted_state state = {PRESSURE, energy, density, 17};
    eas_answer expected = {.letter = 'P'};
    const char *wrong = judge_energy(energy, density, &expected, answer);
    if (wrong != NULL)
        return wrong;
    if (!pressure_warned(expected.y, expected.z))
        return judge_fitted(&state, &expected, answer);
    expected.number = state.refusal;
    return answers_differ(&expected, answer);
}

bool first_in_range(uint32_t kind, uint64_t first) {
    return kind == TEMPERATURE_KIND ? first >= P_MIN && first <= P_MAX : first >= E_MIN && first <= E_MAX;
}

const char *judge_answer(uint32_t kind, uint64_t first, uint64_t second, const eas_answer *answer) {
    if (!kind_known(kind))
        return judge_refusal(6, answer);
    if (!first_in_range(kind, first))
        return judge_refusal(10, answer);
    if (second < D_MIN || second > D_MAX)
        return judge_refusal(11, answer);
    return kind == TEMPERATURE_KIND ? judge_temperature(first, second, answer)
           : kind == ENTROPY_KIND   ? judge_entropy(first, second, answer)
                                    : judge_pressure(first, second, answer);
}
