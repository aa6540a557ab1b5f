/* A plain C calculator with the same checks as the library: chained hashing for names and the listing's doubles for
 * values. Benchmarks are measured against it, and the fuzz drivers compare with it and follow its coverage. */
#ifndef BASELINE_H
#define BASELINE_H

#include <stddef.h>
#include <stdint.h>
#include <stdio.h>

#include "airstate.h"

uint32_t baseline_check(const uint8_t *sheet, size_t n);
eas_record baseline_find(const uint8_t *sheet, size_t n, const uint8_t *spelled, size_t m);
eas_part baseline_remark(const uint8_t *sheet, size_t n, const uint8_t *spelled, size_t m);
eas_text baseline_forward(const uint8_t *sheet, size_t n, uint8_t *out, size_t room);
eas_text baseline_back(const uint8_t *sheet, size_t n, uint8_t *out, size_t room);
eas_begun baseline_begin(const uint8_t *sheet, size_t n);
eas_step baseline_next(const uint8_t *sheet, size_t n, eas_walk walk, uint8_t *out, size_t room);
eas_text baseline_add(const uint8_t *sheet, size_t n, const uint8_t *spelled, size_t m, uint32_t kind, uint64_t first,
                      uint64_t second, uint8_t *out, size_t room);
eas_text baseline_read(const uint8_t *spelled, size_t n, uint8_t name[40]);
eas_text baseline_spell(const uint8_t *name, size_t n, uint8_t *out, size_t room);

/* A state's answer in doubles, without the fit's own values: number, letter, logarithms and value, each in its unit. */
typedef struct {
    uint32_t number;
    char letter;
    double y, z, value;
} baseline_answer;

baseline_answer baseline_search(const uint8_t *sheet, size_t n, const uint8_t *spelled, size_t m);
size_t baseline_line(const uint8_t *sheet, size_t n, const uint8_t *spelled, size_t m, char out[192]);

/* The listing program's output for a list of names: the sheet is checked once. */
void baseline_listing(const uint8_t *sheet, size_t n, const uint8_t *names, size_t length, FILE *out);

#endif
