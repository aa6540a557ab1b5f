/* Whole answers: every allowed choice is taken, every mistake and every changed field is rejected. */
#include <inttypes.h>
#include <stddef.h>
#include <stdio.h>

#include "maker.h"
#include "reference/answer.h"
#include "selftest.h"
#include "states.h"
#include "tally.h"

enum { RANDOM_STATES = 10000, JUDGED_PER_MISTAKE = 400 };

/* A mistake whose answers may happen to lie within a free answer's tolerance. */
static bool may_be_allowed(mistake m) {
    return m == WEIGHT_OF_OTHER_SIGN || m == WEIGHT_STUCK_AT_HALF || m == SERIES_TOO_SHORT ||
           m == TEMPERATURE_CONSTANT || m == EDGE_WEIGHT_TWICE || m == MINUS_TAKEN_AS_PLUS ||
           m == MINUS_WEIGHT_WITHOUT_SIGN || m == MINUS_WEIGHT_HELD_ABOVE_ZERO;
}

static air_state selftest_state(size_t i, uint64_t seed, const air_state *edges, size_t count) {
    random_source r = random_case(seed, 1, i);
    return i < count ? edges[i] : random_state(&r);
}

/* On states of one kind that shows the mistake; 0 is any unknown one. */
static void test_mistake(mistake m, uint8_t kind, uint64_t seed) {
    size_t count, seen = 0, rejected = 0;
    const air_state *edges = edge_states(&count);
    for (size_t i = 0; i < count + RANDOM_STATES && seen < JUDGED_PER_MISTAKE; i++) {
        tally_case(mistake_name(m), i);
        air_state s = selftest_state(i, seed, edges, count);
        if ((kind_known(s.kind) ? s.kind : 0) != kind)
            continue;
        eas_answer right = make_answer(NO_MISTAKE, s.kind, s.first, s.second);
        eas_answer wrong = make_answer(m, s.kind, s.first, s.second);
        if (answers_differ(&right, &wrong) == NULL)
            continue;
        seen++;
        bool rejects = judge_answer(s.kind, s.first, s.second, &wrong) != NULL;
        rejected += rejects;
        if (!may_be_allowed(m) && !tally_check(rejects, "kind %u %" PRIu64 " %" PRIu64, s.kind, s.first, s.second))
            tally_answer("taken", &wrong);
    }
    tally_check(rejected > 0 && 2 * rejected >= seen, "kind %u, %zu of %zu rejected", kind, rejected, seen);
    printf("  %-50s kind %u: %zu wrong answers, %zu rejected\n", mistake_name(m), kind, seen, rejected);
}

/* The reference must take every allowed choice, not just the nearest. */
static void test_right_answers(mistake choice, uint64_t seed) {
    size_t count;
    const air_state *edges = edge_states(&count);
    for (size_t i = 0; i < count + RANDOM_STATES; i++) {
        tally_case(mistake_name(choice), i);
        air_state s = selftest_state(i, seed, edges, count);
        eas_answer right = make_answer(choice, s.kind, s.first, s.second);
        const char *wrong = judge_answer(s.kind, s.first, s.second, &right);
        if (!tally_check(wrong == NULL, "%s; kind %u %" PRIu64 " %" PRIu64, wrong, s.kind, s.first, s.second))
            tally_answer("rejected", &right);
    }
}

static void must_reject(air_state s, const eas_answer *answer, const char *change) {
    if (!tally_check(judge_answer(s.kind, s.first, s.second, answer) != NULL, "%s; kind %u %" PRIu64 " %" PRIu64,
                     change, s.kind, s.first, s.second))
        tally_answer("taken", answer);
}

/* Every field of a right answer changed by itself. A weight may move by 4 within its tolerance, the temperature of a
 * fit by three millionths of its logarithm, a logarithm by 1 in a refusal, where gamma is constant and where a joined
 * pressure is small, so these take longer steps. A join's own value is fixed by its edges. */
static void test_changed_fields(air_state s) {
    eas_answer right = make_answer(NO_MISTAKE, s.kind, s.first, s.second);
    bool flat = right.z <= printed_pieces[PRESSURE][band_of(right.y)][0].upper || right.carries & EAS_CARRIES_HIGH;
    int64_t log_step = right.number == 12 || right.number == 17 || (right.letter == 'P' && flat) ? 2 : 1;
    int64_t kelvin_step = right.value / 50000 + 1;
    bool single = right.low.fit != 0 && !(right.carries & EAS_CARRIES_HIGH);
    for (int64_t step = -1; step <= 1; step += 2) {
        eas_answer a[12];
        for (int i = 0; i < 12; i++)
            a[i] = right;
        a[0].number += (uint32_t)step;
        a[1].letter += (uint32_t)step;
        a[2].x += step;
        a[3].y += log_step * step;
        a[4].z += log_step * step;
        a[5].value += single ? step * kelvin_step : step;
        a[6].low.fit += step;
        a[7].low.weight += 5 * step;
        a[8].low.value += step * kelvin_step;
        a[9].high.fit += step;
        a[10].high.weight += 5 * step;
        a[11].high.value += step * kelvin_step;
        static const char *const fields[] = {"number",    "letter",   "x",           "y",
                                             "z",         "value",    "low.fit",     "low.weight",
                                             "low.value", "high.fit", "high.weight", "high.value"};
        for (int i = 0; i < 12; i++)
            must_reject(s, &a[i], fields[i]);
    }
    for (int bit = 0; bit < 6; bit++) {
        eas_answer a = right;
        a.carries ^= (uint32_t)1 << bit;
        must_reject(s, &a, "carries");
    }
}

static void test_swapped_fields(air_state s) {
    eas_answer right = make_answer(NO_MISTAKE, s.kind, s.first, s.second), a = right;
    a.y = right.z, a.z = right.y;
    if (a.y != a.z)
        must_reject(s, &a, "y and z swapped");
    a = right;
    a.low = right.high, a.high = right.low;
    if (right.low.fit != 0)
        must_reject(s, &a, "edges swapped");
    for (int i = 0; i < 2; i++) {
        a = right;
        eas_edge *edge = i == 0 ? &a.low : &a.high, kept = *edge;
        *edge = (eas_edge){.fit = kept.weight, .weight = kept.fit, .value = kept.value};
        if (kept.fit != kept.weight)
            must_reject(s, &a, "fit and weight swapped");
    }
    a = right;
    a.letter = right.letter == 'T' ? 'S' : 'T';
    must_reject(s, &a, "other letter");
    a = right;
    a.y += 2, a.x += 2;
    must_reject(s, &a, "logarithms too high");
    a.y -= 4, a.x -= 4;
    must_reject(s, &a, "logarithms too low");
}

/* One state of every sort of answer. */
static void test_changed_answers(void) {
    static const air_state states[] = {
        {1, 101330000000, 129200000000},
        {2, 78408400, 129200000000},
        {0, 1, 12920},
        {1, 0, 12920},
        {2, 7840839, 12920},
        {1, 1, 12919},
        {2, 7840840, UINT64_MAX},
        {1, 1, 12920},
        {1, 100000000000000000, 12920},
        {2, 1000000000000, 12920},
        {1, 10133000000000, 12920000000},
        {3, 78408400, 129200000000},
        {3, 7840839, 12920},
        {3, 7840840, 12919},
        {3, 1000000000000, 12920},
    };
    static const int64_t rows[] = {-6543211, -4510000, -2345678, -499000, 1234567};
    for (size_t i = 0; i < LENGTH(states); i++) {
        tally_case("changed answers", i);
        test_changed_fields(states[i]);
        test_swapped_fields(states[i]);
    }
    for (size_t i = 0; i < LENGTH(rows); i++) {
        for (int64_t z = -900000; z < 3700000; z += 271828) {
            tally_case("changed answers of a row", i);
            for (int kind = 1; kind <= LAST_KIND; kind++) {
                test_changed_fields(state_near((uint8_t)kind, rows[i], z));
                test_swapped_fields(state_near((uint8_t)kind, rows[i], z));
            }
        }
    }
}

void test_answers(uint64_t seed) {
    test_changed_answers();
    for (mistake m = NO_MISTAKE; m < FIRST_MISTAKE; m++)
        test_right_answers(m, seed);
    for (mistake m = FIRST_MISTAKE; m < MISTAKES; m++)
        for (const char *kind = mistake_kinds(m); *kind != 0; kind++)
            test_mistake(m, (uint8_t)(*kind - '0'), seed);
}
