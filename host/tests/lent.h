/* Buffers to lend: each ends where an unreadable page begins, has marked bytes in front, and shows every change. */
#ifndef HOST_LENT_H
#define HOST_LENT_H

#include <stdbool.h>
#include <stddef.h>
#include <stdint.h>

typedef struct {
    uint8_t *first, *end; /* the usable pages; an unreadable page on each side */
    uint8_t *bytes;       /* what is lent: size bytes up to end */
    size_t size;
    uint8_t salt;
} lent_buffer;

/* Room for up to `largest` bytes. Ends the program where the system gives none. */
void lent_open(lent_buffer *l, size_t largest);

/* Lends a copy of these bytes for reading. */
const uint8_t *lent_input(lent_buffer *l, const uint8_t *bytes, size_t n);

/* Lends n bytes for writing, filled with a pattern that differs from call to call. */
uint8_t *lent_output(lent_buffer *l, size_t n);

/* Whether an input still holds these bytes, and the marked bytes stand. */
bool lent_input_kept(const lent_buffer *l, const uint8_t *bytes);

/* Whether an output starts with these n bytes, has its pattern in the rest, and the marked bytes stand. */
bool lent_output_is(const lent_buffer *l, const void *prefix, size_t n);

#endif
