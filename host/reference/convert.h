/* Request 6: a sheet of one version written in the other. */
#ifndef REFERENCE_CONVERT_H
#define REFERENCE_CONVERT_H

#include "made.h"

/* A parsed sheet of the version `from`, 1 or 2, in the other one: 0, or 1 to 6, 16 or 18. */
void sheet_convert(made_sheet *out, const parsed_sheet *parsed, const uint8_t *sheet, uint64_t from);

#endif
