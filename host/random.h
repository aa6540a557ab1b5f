/* Repeatable random numbers: every case has its own start, made from the seed, a part and an index. */
#ifndef HOST_RANDOM_H
#define HOST_RANDOM_H

#include <stdint.h>

typedef struct {
    uint64_t state;
} random_source;

/* splitmix64 */
static inline uint64_t random_bits(random_source *r) {
    uint64_t z = r->state += UINT64_C(0x9E3779B97F4A7C15);
    z = (z ^ (z >> 30)) * UINT64_C(0xBF58476D1CE4E5B9);
    z = (z ^ (z >> 27)) * UINT64_C(0x94D049BB133111EB);
    return z ^ (z >> 31);
}

static inline random_source random_case(uint64_t seed, uint64_t part, uint64_t index) {
    random_source r = {seed};
    r.state = random_bits(&r) + part;
    r.state = random_bits(&r) + index;
    return r;
}

/* From 0 to count - 1; count above 0. */
static inline uint64_t random_below(random_source *r, uint64_t count) {
    return random_bits(r) % count;
}

/* From 0 to below 1. */
static inline double random_unit(random_source *r) {
    return (double)(random_bits(r) >> 11) / 9007199254740992.0;
}

static inline int64_t random_between(random_source *r, int64_t low, int64_t high) {
    return low + (int64_t)random_below(r, (uint64_t)(high - low) + 1);
}

#endif
