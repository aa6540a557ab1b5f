/* Decimal numbers as whole numbers of a unit, exactly: no value passes through floating point. */
#ifndef DECIMAL_H
#define DECIMAL_H

#include <stdbool.h>
#include <stddef.h>
#include <stdint.h>

typedef enum {
    DECIMAL_READ,
    DECIMAL_ROUNDED,  /* read, and rounded to the nearest unit */
    DECIMAL_WRONG,    /* not digits with at most one point and an exponent */
    DECIMAL_TOO_FINE, /* more digits than the unit holds */
    DECIMAL_TOO_LARGE /* not below 2^64 units */
} decimal_verdict;

/* How a number is written, and what it is to be: whole units of 10^-decimals, where one of what it is written in is
 * over/under of what the units are parts of. */
typedef struct {
    unsigned decimals;
    uint64_t over, under; /* the product of `over` and 10^22, and that of `under` and 2^64, are below 2^126 */
    bool comma;           /* whether a comma may stand in place of the point */
    bool round;           /* whether it is rounded where it is too fine, a half away from 0 */
} number_form;

/* Reads "101330", "1.292", ".5", "2.5e-3". */
decimal_verdict read_number(const char *text, size_t n, const number_form *form, uint64_t *units);

/* The same in a unit of 10^-decimals, exactly. */
decimal_verdict read_decimal(const char *text, size_t n, unsigned decimals, uint64_t *units);

/* Writes a number of units as the shortest decimal that reads back to it; the room is DECIMAL_ROOM bytes. */
enum { DECIMAL_ROOM = 32 };
void write_decimal(char out[DECIMAL_ROOM], uint64_t units, unsigned decimals);

/* The same of a number that may be below 0, as an answer's may. */
void write_value(char out[DECIMAL_ROOM], int64_t units, unsigned decimals);

#endif
