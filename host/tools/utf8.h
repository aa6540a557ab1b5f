/* Names as text. */
#ifndef UTF8_H
#define UTF8_H

#include <stdbool.h>
#include <stddef.h>
#include <stdint.h>

/* The code point that begins n bytes of UTF-8, with its length in bytes; length 0 where they begin with none. */
typedef struct {
    uint32_t point;
    size_t length;
} utf8_point;

utf8_point utf8_first(const uint8_t *bytes, size_t n);

/* Whether the bytes are UTF-8 that can be shown: no control characters, no marks of direction, nothing that no text may
 * hold. */
bool is_text(const uint8_t *bytes, size_t n);

#endif
