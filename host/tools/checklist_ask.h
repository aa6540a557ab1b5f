/* The names of a sheet, asked for as a user does: by search, as a plot mark, as a listing line, in a run list of all of
 * them and by a walk over the sheet; and their records, by name and by row, with their remarks. */
#ifndef CHECKLIST_ASK_H
#define CHECKLIST_ASK_H

#include <stdbool.h>

#include "checklist_right.h"
#include "common.h"
#include "reference/line.h"
#include "reference/name.h"
#include "reference/sheet.h"

/* Up to SHOWN_WAYS a state's answer is shown; behind that a part of the sheet is given: its record by its name and by
 * its row, and its remark. */
typedef enum {
    BY_SEARCH,
    BY_PLOT,
    BY_LINE,
    BY_LIST,
    BY_WALK,
    SHOWN_WAYS,
    BY_FIND = SHOWN_WAYS,
    BY_ROW,
    BY_REMARK,
    WAYS
} way;

/* A sheet with the same states, in which each name is asked for a second time; GROWN has up to NEW_STATES behind them.
 */
typedef enum { WITHOUT_REMARKS, CONVERTED, GROWN, REVERSED, TWINS } twin;
enum { NEW_STATES = 8 };

typedef enum {
    AS_WRITTEN, /* as a listing writes the name */
    LOWER_CASE, /* the same with the digits of percent forms in lower case */
    DECODED,    /* what a name with percent forms in itself would be without them: no state has this name */
    ROW_NUMBER  /* the number of a row that is no name */
} asked_as;

/* A state of the sheet, read by the reference. */
typedef struct {
    eas_record record;
    written_name spelled;
    right_state right;
    eas_answer truth; /* the library's answer, by search or for the values alone */
    bool allowed;     /* by the reference */
} named_state;

/* A name and what the library shows and gives for it by each way. */
typedef struct {
    asked_as as;
    bool absent;  /* no state has the name */
    size_t state; /* whose name it is; of DECODED the one that has percent forms; 0 for a row number */
    size_t length;
    uint8_t spelled[SPELLED_MOST];
    eas_answer answer;
    eas_mark mark;
    listing_line lines[SHOWN_WAYS]; /* from BY_LINE on */
    eas_record found, in_row;
    eas_part remark;
    bool differs[TWINS][WAYS]; /* another is shown in a twin, or what is given there is wrong */
    bool lost_by_remark[WAYS]; /* a part that is refused, but not where the sheet's remarks are taken away */
} asked_name;

/* What the conversion of a sheet to its other version gives as a whole. */
typedef struct {
    uint32_t number, due; /* its refusal and the right one */
    bool returns;         /* converted again, the same sheet, without its remarks, has the same bytes */
} conversion_result;

/* What adding states gives. */
typedef struct {
    const char *wrong;    /* null, or what is wrong with a result: its number, its length or a byte */
    uint32_t number, due; /* its refusal and the right one */
} addition_result;

typedef struct {
    const char *path;
    size_t n;
    uint8_t bytes[SHEET_MOST + 1];
    parsed_sheet parsed;
    named_state *states; /* parsed.count of them */
    size_t count, room;
    asked_name *names;
    conversion_result conversion;
    addition_result addition;
    bool numbers_alone[WAYS]; /* from BY_FIND on, whether only numbers are given what is wrong, as if they were rows */
} asked_sheet;

/* Reads a sheet and asks for all its names. Null where it cannot be read or is refused, with the reason and, where one
 * is at fault, the record. */
asked_sheet *ask_sheet(const char *path, char reason[REFUSAL_ROOM]);

/* Memory, or the end of the program where there is none. */
void *checked(void *memory);

/* A walk over a sheet, with the lines that it has given. */
typedef struct {
    eas_walk walk;
    char *text;
    size_t length;
} asked_walk;

/* Begins a walk; makes a step, false where none was left; hands the states' names their lines. The sheet may grow
 * between two steps. */
asked_walk begin_walk(const asked_sheet *sheet);
bool step_walk(asked_walk *w, const asked_sheet *sheet);
void end_walk(asked_walk *w, asked_sheet *sheet);

/* Asks for all names by every way but a walk; by every way. */
void ask_names(asked_sheet *sheet);
void ask_all(asked_sheet *sheet);

/* A walk and the rows give each state once, its name as written. */
bool is_asked_by(const asked_name *name, way w);

/* The name of a state has percent forms in its spelling; digits only. */
bool has_signs(const named_state *s);
bool has_digits_only(const asked_sheet *sheet, const named_state *s);

/* The number that a name of digits would be; UINT64_MAX where it is too large. */
uint64_t number_in_name(const asked_sheet *sheet, const named_state *s);

#endif
