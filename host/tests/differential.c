/* Compares the library with the reference on edge and random inputs, and its answers to sheets that differ in remarks,
 * are converted into each other, or grow.
 *
 * differential [seed [count]]: count is the number of sheets and of spellings, 200,000 by default; of states there are
 * half as many again, of pairs of sheets and of sheets to convert a quarter each, of sheets that grow a hundredth. A
 * case depends on the seed and its index alone, so that a failure is repeated by giving its seed.
 */
#include "differential.h"

#include <stdlib.h>

#include "growth.h"
#include "pairs.h"
#include "tally.h"

int main(int count, char **arguments) {
    uint64_t seed = count > 1 ? strtoull(arguments[1], NULL, 10) : 20260101;
    uint64_t cases = count > 2 ? strtoull(arguments[2], NULL, 10) : 200000;
    tally_start("differential", seed);
    compare_states(seed, cases);
    growth_open();
    compare_sheets(seed, cases);
    pairs_open();
    compare_remarks(seed, cases / 4);
    compare_conversions(seed, cases / 4);
    compare_additions(seed);
    compare_walks(seed, cases / 100);
    compare_spellings(seed, cases);
    return tally_end();
}
