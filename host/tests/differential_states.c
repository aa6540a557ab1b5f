/* Every state's answer is judged by the reference, and a second call must give the same. */
#include <inttypes.h>

#include "differential.h"
#include "reach.h"
#include "reference/answer.h"
#include "states.h"
#include "tally.h"

enum { STATES_PART = 11 };

static void compare_state(air_state s) {
    eas_answer a = eas_evaluate(s.kind, s.first, s.second);
    const char *wrong = judge_answer(s.kind, s.first, s.second, &a);
    if (!tally_check(wrong == NULL, "not allowed: %s", wrong)) {
        tally_note("kind %u first %" PRIu64 " (%#" PRIx64 ") second %" PRIu64 " (%#" PRIx64 ")", s.kind, s.first,
                   s.first, s.second, s.second);
        tally_answer("got", &a);
        return;
    }
    eas_answer again = eas_evaluate(s.kind, s.first, s.second);
    const char *differs = answers_differ(&a, &again);
    if (!tally_check(differs == NULL, "a second call differs in %s", differs))
        tally_answer("got", &again);
    reach_count(&a);
}

/* A kind over 255 is unknown, whatever its low byte says. */
static void compare_large_kinds(void) {
    static const uint32_t kinds[] = {256, 257, 258, 259, 511, 513, 65539, 16777218, 2147483649, 4294967042, UINT32_MAX};
    for (size_t i = 0; i < sizeof kinds / sizeof kinds[0]; i++) {
        tally_case("large kind", i);
        eas_answer a = eas_evaluate(kinds[i], P0, D0);
        if (!tally_check(judge_answer(kinds[i], P0, D0, &a) == NULL, "kind %" PRIu32, kinds[i]))
            tally_answer("got", &a);
    }
}

/* Half as many states again as are counted, since a third of them are pressures. */
void compare_states(uint64_t seed, uint64_t count) {
    size_t edges;
    const air_state *edge = edge_states(&edges);
    for (size_t i = 0; i < edges; i++) {
        tally_case("edge state", i);
        compare_state(edge[i]);
    }
    for (uint64_t i = edges; i < count + count / 2; i++) {
        random_source r = random_case(seed, STATES_PART, i);
        tally_case("random state", i);
        compare_state(random_state(&r));
    }
    compare_large_kinds();
    reach_check();
}
