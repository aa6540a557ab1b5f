/* Request 7: a state added behind the others of a sheet. */
#ifndef REFERENCE_ADD_H
#define REFERENCE_ADD_H

#include "made.h"
#include "typed.h"

/* A parsed sheet of n bytes with one record more, its remark empty: 0, or 1 to 8, 16 or 19. */
void sheet_add(made_sheet *out, const parsed_sheet *parsed, const uint8_t *sheet, size_t n, const typed_state *typed);

#endif
