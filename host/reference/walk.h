/* Request 7: a walk over the records that a sheet had when the walk began. */
#ifndef REFERENCE_WALK_H
#define REFERENCE_WALK_H

#include "line.h"
#include "sheet.h"

eas_begun walk_begin(const parsed_sheet *parsed);

/* The record that the walk's next step gives; null where none is left or the sheet is refused. */
const eas_record *walk_next(const parsed_sheet *parsed, eas_walk walk);

/* The line of a record whose state has this answer. */
listing_line record_line(const uint8_t *sheet, const eas_record *record, const eas_answer *answer);

/* Null where a step gave what it must in a room that begins at `written`; else what is wrong. The line is that of
 * walk_next's record. */
const char *judge_step(const parsed_sheet *parsed, eas_walk walk, const listing_line *line, size_t room, eas_step got,
                       const uint8_t *written);

#endif
