/* The kinds of state that document 01 and request 3 know. */
#ifndef REFERENCE_KINDS_H
#define REFERENCE_KINDS_H

#include <stdbool.h>
#include <stdint.h>

enum { TEMPERATURE_KIND = 1, ENTROPY_KIND = 2, PRESSURE_KIND = 3, LAST_KIND = PRESSURE_KIND };

static inline bool kind_known(uint32_t kind) {
    return kind >= TEMPERATURE_KIND && kind <= LAST_KIND;
}

#endif
