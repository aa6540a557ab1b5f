#ifndef PAIR_H
#define PAIR_H

#include <stddef.h>
#include <stdint.h>

/* An input as the library gets it. */
typedef struct {
    const uint8_t *sheet, *spelled;
    size_t n, m;
} query;

/* Bytes of the record at a place up to its second value, and with its remark in a sheet of version 2; 0 where they are
 * not all there or the name's length is wrong. */
size_t values_size(const uint8_t *sheet, size_t n, size_t at);
size_t record_size(const uint8_t *sheet, size_t n, size_t at);

/* Aborts where two sheets, asked for the same name, are told apart by a call that writes no sheet, eas_remark and the
 * places of their names aside, or where the other one's remark is not its own. */
void check_alike(query q, query other);

/* Checks that for a sheet of version 2 within 65,536 bytes and one that differs from it in remarks only. The other
 * remarks are made of the given bytes. */
void check_pair(query q, const uint8_t *bytes, size_t size);

#endif
