/* Names that fall into one chain of the library's index of names (hash_of, crates/sheet_name/specs/Name.antt), as
 * nobody has them but who chose them for it. */
#ifndef HOST_CHAIN_H
#define HOST_CHAIN_H

#include <stdbool.h>
#include <stddef.h>
#include <stdint.h>

enum { CHAINED_BYTES = 3 };

/* The chain of a name, one of 4,096. */
static inline uint32_t chain_of(const uint8_t *name, size_t length) {
    uint32_t hash = 0;
    for (size_t i = 0; i < length; i++)
        hash = (hash + name[i]) * 2654435769u;
    return hash >> 20;
}

/* The next name of chain 0: its last three bytes go up from those of the name before, the others stay. False where
 * there is none. */
static inline bool next_in_chain(uint8_t *name, size_t length) {
    uint8_t *last = name + length - CHAINED_BYTES;
    uint32_t number = (uint32_t)last[0] << 16 | (uint32_t)last[1] << 8 | last[2];
    do {
        if (++number >> 24)
            return false;
        last[0] = (uint8_t)(number >> 16);
        last[1] = (uint8_t)(number >> 8);
        last[2] = (uint8_t)number;
    } while (chain_of(name, length) != 0);
    return true;
}

#endif
