/* What eas_find, eas_record_at and eas_remark give: a state's record by its name and by its row, and its remark, beside
 * what the sheet's own bytes say. */
#ifndef CHECKLIST_PARTS_H
#define CHECKLIST_PARTS_H

#include "checklist_ask.h"

/* Whether a way gives a part of the sheet. */
bool is_part(way w);

/* Asks the library for a name's record and remark and, where a row is due, for the state's row. */
void ask_parts(const asked_sheet *sheet, asked_name *name);

/* Whether what a name was given by such a way is what the bytes say; what they say of its record, and of its remark. */
bool part_is_right(const parsed_sheet *parsed, const asked_name *name, way w);
eas_record record_due(const parsed_sheet *parsed, const asked_name *name);
eas_part remark_due(const parsed_sheet *parsed, const asked_name *name);

/* The record that a name was given by its name or by its row. */
eas_record record_given(const asked_name *name, way w);

/* The number with which a name is refused by such a way, else 0. */
uint32_t part_refusal(const asked_name *name, way w);

/* The state other than the name's own whose record or remark this is; SIZE_MAX where there is none. */
size_t state_given(const asked_sheet *sheet, const asked_name *name, way w);

/* Whether all that a way gives wrong is given to numbers, as if they were rows. */
bool wrong_for_numbers_alone(const asked_sheet *sheet, way w);

#endif
