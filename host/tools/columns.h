/* Which columns a text of states has, and the state that a row gives by them. */
#ifndef COLUMNS_H
#define COLUMNS_H

#include "airstate.h"
#include "complaints.h"
#include "fields.h"

/* Headings of the columns that are no quantity with a unit. */
enum { NAME, SPELLED, KIND, FIRST, SECOND, REMARK, REMARK_SPELLED, FIRST_GIVEN, COLUMNS = FIRST_GIVEN + GIVEN_COUNT };
extern const char *const headings[FIRST_GIVEN];

/* Where each column stands, its place plus 1, or 0; and the unit of those that have one. */
typedef struct {
    size_t width, place[COLUMNS];
    const unit *in[GIVEN_COUNT];
    bool comma, round;
    complaints *told;
} columns;

/* A state without its name. */
typedef struct {
    const kind_row *kind;
    uint64_t first, second;
} row_state;

/* Reads the row of headings and tells what it lacks; columns that are not read are told where `tells` says so. Gives
 * whether rows can be read. */
bool read_headings(columns *c, const row *r, bool needs_names, bool tells);

/* Whether lines that begin with # can be no rows: the first column has no free text. */
bool may_have_comments(const columns *c);

/* Whether every field is empty. */
bool is_blank_row(const row *r);

/* The field of a column; empty where the text or the row has none. */
field cell(const columns *c, const row *r, int column);

/* Reads the kind and the values of a row, and tells what is wrong with it. */
bool read_row_state(columns *c, const row *r, row_state *s);

#endif
