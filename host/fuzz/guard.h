/* Buffers for the fuzz drivers. Each ends at a page that may not be touched and has marked bytes before it, so that a
 * library without instrumentation cannot read or write past it unnoticed. */
#ifndef GUARD_H
#define GUARD_H

#include <stddef.h>
#include <stdint.h>

enum { ROOM_MOST = 70000 }; /* bytes of the largest buffer */

typedef struct {
    uint8_t *start, *end; /* the pages between the untouchable ones */
} guard;

void guard_make(guard *g);

/* n bytes that end at the untouchable page, all marked, or a copy of `from` where that is given; null for no bytes. */
uint8_t *guard_take(guard *g, const uint8_t *from, size_t n);

/* Whether every byte before the last `n` is still marked, and of these every one from `written` on. */
int guard_kept(const guard *g, size_t n, size_t written);

/* Prints what is wrong and aborts, so that the fuzzer keeps the input. */
void require(int holds, const char *what);

#endif
