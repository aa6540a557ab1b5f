/* Document 01, Names: reading and writing spellings by RFC 3986. */
#ifndef REFERENCE_NAME_H
#define REFERENCE_NAME_H

#include <stddef.h>
#include <stdint.h>

enum { NAME_MAX_BYTES = 40, SPELLING_MAX_BYTES = 120 };

typedef struct {
    uint32_t number; /* 0, or 7 or 8 */
    size_t length;
    uint8_t bytes[NAME_MAX_BYTES];
} read_name;

typedef struct {
    uint32_t number; /* 0, or 8 */
    size_t length;
    uint8_t bytes[SPELLING_MAX_BYTES];
} written_name;

read_name name_read(const uint8_t *spelled, size_t n);
written_name name_write(const uint8_t *name, size_t n);

#endif
