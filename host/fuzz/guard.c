#include "guard.h"

#include <stdio.h>
#include <stdlib.h>
#include <string.h>
#include <sys/mman.h>
#include <unistd.h>

enum { MARK = 0xA7, BEFORE = 64 };

void require(int holds, const char *what) {
    if (holds)
        return;
    fprintf(stderr, "violated: %s\n", what);
    abort();
}

void guard_make(guard *g) {
    if (g->start)
        return;
    size_t page = (size_t)sysconf(_SC_PAGESIZE), size = (ROOM_MOST + BEFORE + page - 1) / page * page;
    uint8_t *pages = mmap(NULL, size + 2 * page, PROT_READ | PROT_WRITE, MAP_PRIVATE | MAP_ANONYMOUS, -1, 0);
    require(pages != MAP_FAILED, "pages for a buffer");
    require(mprotect(pages, page, PROT_NONE) == 0 && mprotect(pages + page + size, page, PROT_NONE) == 0,
            "untouchable pages");
    g->start = pages + page;
    g->end = g->start + size;
    memset(g->start, MARK, size);
}

uint8_t *guard_take(guard *g, const uint8_t *from, size_t n) {
    guard_make(g);
    uint8_t *bytes = g->end - n;
    memset(bytes - BEFORE, MARK, BEFORE + n);
    if (from && n > 0)
        memcpy(bytes, from, n);
    return n > 0 ? bytes : NULL;
}

int guard_kept(const guard *g, size_t n, size_t written) {
    const uint8_t *bytes = g->end - n;
    for (const uint8_t *b = bytes - BEFORE; b < bytes; b++)
        if (*b != MARK)
            return 0;
    for (const uint8_t *b = bytes + written; b < g->end; b++)
        if (*b != MARK)
            return 0;
    return 1;
}
