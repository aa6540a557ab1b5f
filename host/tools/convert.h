/* A sheet of one version in the other. */
#ifndef CONVERT_H
#define CONVERT_H

#include "airstate.h"

/* eas_forward or eas_back. */
typedef eas_text conversion(const uint8_t *sheet, size_t n, uint8_t *out, size_t room);

/* Converts a whole file, tells every failure, and writes nothing after one. 0 is success; of a sheet of version 1,
 * which is for older copies, the states are told whose kind some of these do not know. */
int convert(const char *input, const char *output, conversion *by);

#endif
