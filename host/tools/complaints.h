/* What is wrong with the rows of a text: the first of many are told, and how many more there are. */
#ifndef COMPLAINTS_H
#define COMPLAINTS_H

#include <stdbool.h>

#include "rows.h"

enum { COMPLAINTS_MOST = 20, COMPLAINT_ROOM = 640 };

typedef struct {
    const char *input;         /* how messages call the text */
    unsigned long count;       /* rows that are wrong */
    unsigned long fine;        /* of them, those by a number that is too fine, of which the first alone is told */
    unsigned long untold;      /* others that were not told */
    unsigned long rounded;     /* numbers that were rounded */
    char last[COMPLAINT_ROOM]; /* the last one, in words */
} complaints;

/* Tells what is wrong with a row. Gives false. */
bool complain(complaints *c, const row *r, const char *format, ...) __attribute__((format(printf, 3, 4)));

/* The same for a number that is too fine. */
bool complain_of_digits(complaints *c, const row *r, const char *heading, const char *fault);

/* Tells how many were not told, at the text's end. */
void tell_untold(const complaints *c);

#endif
