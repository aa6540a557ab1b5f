/* The rows of a CSV text, read by libcsv, each with the line on which it begins. Any number of rows are read in bounded
 * memory. */
#ifndef ROWS_H
#define ROWS_H

#include <stdbool.h>
#include <stddef.h>
#include <stdio.h>

enum { FIELDS_MOST = 1000, ROW_MOST = 1 << 20 };

typedef struct {
    const char *text;
    size_t length;
} field;

typedef struct {
    unsigned long line;
    size_t count;
    field fields[FIELDS_MOST];
} row;

/* Who gets the rows. */
typedef struct {
    void (*take)(void *data, const row *r);
    void *data;
    bool comments;  /* whether a line that begins with # is passed over; take may change it */
    char delimiter; /* known from the first row on */
} row_taker;

/* Reads a text whose fields are parted by commas or, where its first row has none, by semicolons or tabs; a line such
 * as "sep=;" in front of it says which. A byte-order mark, either line end, quoted fields and blank lines are as usual;
 * blanks around a field that is not quoted belong to it. Tells a text that is no CSV; 0 is success. */
int read_rows(const char *name, FILE *in, row_taker *taker);

#endif
