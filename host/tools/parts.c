#include "parts.h"

#include <limits.h>
#include <stdlib.h>
#include <string.h>

#include "common.h"
#include "options.h"

bool keep_part(sheet_parts *p, const uint8_t *bytes, size_t n) {
    if (p->count == p->room) {
        size_t room = 2 * p->room + 8;
        sheet_part *full = realloc(p->full, room * sizeof *full);
        if (!full)
            return false;
        p->full = full;
        p->room = room;
    }
    sheet_part *part = &p->full[p->count];
    part->n = n;
    part->bytes = malloc(n);
    if (!part->bytes)
        return false;
    memcpy(part->bytes, bytes, n);
    p->count++;
    return true;
}

void free_parts(sheet_parts *p) {
    for (size_t i = 0; i < p->count; i++)
        free(p->full[i].bytes);
    free(p->full);
    *p = (sheet_parts){.full = NULL};
}

void count_state(sheet_parts *p, const row_state *s) {
    uint32_t number = eas_evaluate(s->kind->kind, s->first, s->second).number;
    p->states[number < REFUSALS ? number : 0]++;
}

/* Writes a sheet to the output's name with its number before the ending. */
static int write_part(const char *output, size_t number, const uint8_t *bytes, size_t n) {
    char path[PATH_MAX];
    const char *slash = strrchr(output, '/'), *name = slash ? slash + 1 : output, *dot = strrchr(name, '.');
    int before = (int)(dot && dot > name ? (size_t)(dot - output) : strlen(output));
    int length = snprintf(path, sizeof path, "%.*s-%zu%s", before, output, number, output + before);
    return length < PATH_MAX ? write_output(path, bytes, n) : refuse("%s: the name is too long", output);
}

int write_parts(const sheet_parts *p, const char *output, const uint8_t *last, size_t n) {
    for (size_t i = 0; i < p->count; i++)
        if (write_part(output, i + 1, p->full[i].bytes, p->full[i].n))
            return REFUSED;
    return write_part(output, p->count + 1, last, n);
}

/* How many states will be refused, and why, in words. */
static unsigned long refusals_of(const sheet_parts *p, char *out, size_t room) {
    unsigned long refused = 0;
    size_t used = 0;
    for (uint32_t i = 1; i < REFUSALS && used < room; i++)
        if (p->states[i] > 0) {
            used += (size_t)snprintf(out + used, room - used, "%s%lu with %u (%s)", refused > 0 ? ", " : "",
                                     p->states[i], i, eas_reason(i));
            refused += p->states[i];
        }
    if (refused == 0)
        snprintf(out, room, "none will be refused");
    return refused;
}

void tell_packed(const sheet_parts *p, const complaints *told, size_t n) {
    char why[1024] = "", sheets[64] = "", rounded[64] = "", refused[64] = "";
    unsigned long refusals = refusals_of(p, why, sizeof why), states = p->states[0] + refusals;
    if (p->count > 0)
        snprintf(sheets, sizeof sheets, " in %zu sheets", p->count + 1);
    if (told->rounded > 0)
        snprintf(rounded, sizeof rounded, ", %lu number%s rounded", told->rounded, told->rounded == 1 ? "" : "s");
    if (refusals > 0)
        snprintf(refused, sizeof refused, "%lu will be refused: ", refusals);
    refuse("%s: %lu state%s%s, %zu of 65,536 bytes used%s%s; %s%s", told->input, states, states == 1 ? "" : "s", sheets,
           n, p->count > 0 ? " in the last" : "", rounded, refused, why);
}
