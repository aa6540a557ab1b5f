/* Counts checks, prints failures with what is needed to repeat them, and ends a test program. */
#ifndef HOST_TALLY_H
#define HOST_TALLY_H

#include <stdbool.h>
#include <stddef.h>
#include <stdint.h>

#include "airstate.h"

/* Names the program, and the seed from which its cases are made. */
void tally_start(const char *name, uint64_t from);

/* Names the case at work, for failures and for a fault inside the library. */
void tally_case(const char *name, uint64_t index);

/* Counts a check. A failure prints its text (as printf) with program, seed and case; true where it held. */
bool tally_check(bool held, const char *format, ...) __attribute__((format(printf, 2, 3)));

/* Further lines below a failure; nothing after the first twenty failures. */
void tally_note(const char *format, ...) __attribute__((format(printf, 1, 2)));
void tally_hex(const char *what, const uint8_t *bytes, size_t n);
void tally_answer(const char *what, const eas_answer *a);

/* Prints the closing line; the result is for main. */
int tally_end(void);

/* Ends a program that the system does not give what it needs; says what that is, and why by errno. */
_Noreturn void tally_stop(const char *what);

#endif
