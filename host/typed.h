/* A state as an operator types it: what eas_add takes beside the sheet and the room. */
#ifndef HOST_TYPED_H
#define HOST_TYPED_H

#include <stddef.h>
#include <stdint.h>

typedef struct {
    const uint8_t *spelled;
    size_t m;
    uint32_t kind;
    uint64_t first, second;
} typed_state;

#endif
