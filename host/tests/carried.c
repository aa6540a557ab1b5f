#include "carried.h"

#include <math.h>

#include "reference/answer.h"
#include "reference/claim.h"
#include "reference/weight.h"

const int64_t tolerances[TOLERANCES] = {[ALLOWED] = WEIGHT_TOLERANCE, [FORMER] = 10};

/* Free answer one leaves the library a choice, so that both values are tried up to a millionth to either side. */
bool find_state(fitted_property of, int64_t y, int64_t z, air_state *state, eas_answer *answer) {
    static const long double off[] = {0.0L, 0.5L, -0.5L, 0.25L, -0.25L, 0.75L, -0.75L};
    const int count = sizeof off / sizeof off[0];
    bool by_pressure = of == TEMPERATURE;
    for (int i = 0; i < count * count; i++) {
        long double first = (long double)(by_pressure ? y + z : z) + off[i / count];
        *state = (air_state){fitted_kind(of), scaled(by_pressure ? P0 : E0, first),
                             scaled(D0, (long double)y + off[i % count])};
        *answer = eas_evaluate(state->kind, state->first, state->second);
        if (answer->carries & EAS_CARRIES_LOGS && answer->y == y && answer->z == z)
            return true;
    }
    return false;
}

/* A fit rises or falls with its weight, so that those at the ends of the allowed weights enclose the others. */
place_distances distances_at(fitted_property of, int64_t y, int64_t z, int64_t fit) {
    const fit_piece *piece = piece_at(of, y, z);
    const transition t = {piece->minus, exponent(piece, y, z), EXPONENT_DECIMALS};
    place_distances d = {.carried = fit_distance(of, y, z, fit)};
    for (int i = 0; i < TOLERANCES; i++) {
        weight_range w = piece->weighed ? weights_within(t, tolerances[i]) : (weight_range){0};
        double by_least = d.carried + (double)(fitted(piece, y, z, w.least) - fit);
        double by_most = d.carried + (double)(fitted(piece, y, z, w.most) - fit);
        d.least[i] = fmin(by_least, by_most);
        d.most[i] = fmax(by_least, by_most);
    }
    return d;
}
