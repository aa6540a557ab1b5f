/* The kinds of state, once for all tools: what is given and what is wanted, with headings and units. A later kind is a
 * row of the table in kinds.c. */
#ifndef KINDS_H
#define KINDS_H

#include <stdint.h>

/* A quantity is kept in whole units of 10^-decimals of its SI unit. */
typedef struct {
    const char *name;    /* "pressure" */
    const char *unit;    /* "Pa" */
    const char *heading; /* of its column in SI units: "pressure_Pa" */
    unsigned decimals;
} quantity;

typedef struct {
    uint8_t kind;
    char letter; /* in an answer and a listing line */
    const quantity *first, *second, *wanted;
    unsigned mark_decimals; /* a plot mark has the wanted quantity in units of 10^-mark_decimals */
    const char *since;      /* the first version of the library that knows the kind; null where every one does */
} kind_row;

enum { KIND_COUNT = 3, GIVEN_COUNT = 3 };

extern const kind_row kinds[KIND_COUNT];

/* Every quantity that some kind is given. */
extern const quantity *const given[GIVEN_COUNT];

/* The row of a kind, or null. */
const kind_row *kind_of(uint64_t kind);

#endif
