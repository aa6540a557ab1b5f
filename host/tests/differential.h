/* The parts of the differential test. */
#ifndef HOST_DIFFERENTIAL_H
#define HOST_DIFFERENTIAL_H

#include <stdint.h>

void compare_states(uint64_t seed, uint64_t count);
void compare_sheets(uint64_t seed, uint64_t count);
void compare_remarks(uint64_t seed, uint64_t count);
void compare_conversions(uint64_t seed, uint64_t count);
void compare_additions(uint64_t seed);
void compare_walks(uint64_t seed, uint64_t count);
void compare_spellings(uint64_t seed, uint64_t count);

#endif
