/* Tests the reference itself: it must take known right answers and reject each kind of wrong one. Links no library.
 *
 * selftest [seed] */
#include "selftest.h"

#include <stdlib.h>

#include "tally.h"

int main(int count, char **arguments) {
    uint64_t seed = count > 1 ? strtoull(arguments[1], NULL, 10) : 1;
    tally_start("selftest", seed);
    test_numbers();
    test_texts();
    test_growth();
    test_listing();
    test_answers(seed);
    return tally_end();
}
