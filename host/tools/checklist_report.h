/* The report: a verdict for each of the five checks and each further line, with the first fault in words. */
#ifndef CHECKLIST_REPORT_H
#define CHECKLIST_REPORT_H

#include "checklist_judge.h"

/* How far lines of the report stand in, and what belongs to them. */
enum { LEFT = 4, INDENT = 7 };

typedef enum { PASSED, FAILED, INCOMPLETE, NO_STATE, VERDICTS } verdict;

/* Of a group of sheets: how they are called, whether a check that lacks a state is no pass, and how many of them cannot
 * be read. */
typedef struct {
    const char *whose;
    bool strict;
    int unread;
} report;

/* Prints the checks of a group; gives whether none failed, every sheet was read and, in a strict report, no check lacks
 * a state. */
bool print_checks(const tally tallies[TALLIES], const report *r);

/* The line of a sheet, or of another file, that cannot be read, or is refused. */
void print_unread(const char *what, const char *path, const char *reason);

/* What is right for a state, or for a name that no state has, which is null; which other state it is that is shown, if
 * any. */
void print_due(const named_state *s);
void print_other(const asked_sheet *sheet, size_t other);

#endif
