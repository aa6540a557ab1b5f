#include "lent.h"

#include <string.h>
#include <sys/mman.h>
#include <unistd.h>

#include "tally.h"

enum { MARKED_BYTES = 64, MARK = 0xA5 };

void lent_open(lent_buffer *l, size_t largest) {
    size_t page = (size_t)sysconf(_SC_PAGESIZE);
    size_t usable = (largest + MARKED_BYTES + page - 1) / page * page;
    l->first = mmap(NULL, usable + 2 * page, PROT_NONE, MAP_PRIVATE | MAP_ANONYMOUS, -1, 0);
    if (l->first == MAP_FAILED || mprotect(l->first + page, usable, PROT_READ | PROT_WRITE) != 0)
        tally_stop("lent buffer");
    l->first += page;
    l->end = l->first + usable;
    l->bytes = l->end;
    l->size = 0;
    l->salt = 0;
}

static void place(lent_buffer *l, size_t n) {
    l->bytes = l->end - n;
    l->size = n;
    l->salt += 91;
    memset(l->bytes - MARKED_BYTES, MARK, MARKED_BYTES);
}

static uint8_t pattern(const lent_buffer *l, size_t at) {
    return (uint8_t)(at * 37 + l->salt);
}

static bool marks_stand(const lent_buffer *l) {
    for (int i = 1; i <= MARKED_BYTES; i++)
        if (l->bytes[-i] != MARK)
            return false;
    return true;
}

const uint8_t *lent_input(lent_buffer *l, const uint8_t *bytes, size_t n) {
    place(l, n);
    if (n > 0)
        memcpy(l->bytes, bytes, n);
    return l->bytes;
}

uint8_t *lent_output(lent_buffer *l, size_t n) {
    place(l, n);
    for (size_t i = 0; i < n; i++)
        l->bytes[i] = pattern(l, i);
    return l->bytes;
}

bool lent_input_kept(const lent_buffer *l, const uint8_t *bytes) {
    return marks_stand(l) && (l->size == 0 || memcmp(l->bytes, bytes, l->size) == 0);
}

bool lent_output_is(const lent_buffer *l, const void *prefix, size_t n) {
    if (n > l->size || !marks_stand(l) || (n > 0 && memcmp(l->bytes, prefix, n) != 0))
        return false;
    for (size_t i = n; i < l->size; i++)
        if (l->bytes[i] != pattern(l, i))
            return false;
    return true;
}
