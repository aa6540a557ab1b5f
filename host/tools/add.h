/* One state more in a sheet. */
#ifndef ADD_H
#define ADD_H

#include <stdbool.h>

/* A state as it is typed: its name spelled or, where `spelled` is null, as it is; its kind by number or in words, its
 * values in SI units, its remark as it is or null; and whether a sheet of version 1 is converted first. */
typedef struct {
    const char *spelled, *name, *kind, *first, *density, *remark;
    bool forward;
} state_words;

/* Adds a state to a whole file, tells every failure, and writes nothing after one. 0 is success. */
int add(const char *input, const char *output, const state_words *typed);

#endif
