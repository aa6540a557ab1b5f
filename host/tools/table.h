/* The states of a sheet as a table: what is given, what was worked out, in SI units, and why not. */
#ifndef TABLE_H
#define TABLE_H

#include <stdio.h>

#include "kinds.h"
#include "record.h"
#include "rows.h"

enum { EXPLAINED_ROOM = 640 };

/* One row. Of a name in a run list that finds no state, number is 0 and `asked` is what stands there. */
typedef struct {
    unsigned number; /* the state's place in the sheet, from 1 */
    state s;
    const kind_row *kind;
    uint32_t refusal;
    int64_t value;
    char reason[EXPLAINED_ROOM]; /* in words; empty where it is not refused */
    unsigned long line;          /* in the run list; 0 where there is none */
    field asked;
} table_row;

/* Who gets the rows, one after the other. */
typedef struct {
    void (*take)(void *data, const table_row *r);
    void *data;
} table_taker;

/* A sheet, and perhaps a run list, as they were read. */
typedef struct {
    const uint8_t *sheet, *names; /* names: null where there is no run list */
    size_t n, names_length;
} table_source;

/* Gives every row of the sheet in its order, or of the run list in its own. */
void each_row(const table_source *source, const table_taker *taker);

/* The writers. Text has aligned columns; a CSV text packs to the same states again; JSON is an array of objects. */
void write_table_text(FILE *out, const table_source *source);
void write_table_csv(FILE *out, const table_source *source);
void write_table_json(FILE *out, const table_source *source);

/* Writes the table of a file in a form, "text" where it is null, and tells every failure. 0 is success. */
int table(const char *input, const char *output, const char *form, const char *names);

#endif
