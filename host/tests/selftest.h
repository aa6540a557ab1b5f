/* The parts of the reference's own test. */
#ifndef HOST_SELFTEST_H
#define HOST_SELFTEST_H

#include "length.h"
#include "reference/made.h"

/* Bytes with their number, and a record's two values, 7 and 258. */
#define BYTES(text) (const uint8_t *)(text), sizeof(text) - 1
#define VALUES "\0\0\0\0\0\0\0\x07\0\0\0\0\0\0\x01\x02"

void test_numbers(void);
void test_answers(uint64_t seed);
void test_texts(void);
void test_growth(void);
void test_listing(void);

/* Wrong results of a call that makes this sheet, in exactly its room: none may be taken. */
void test_wrong_results(const made_sheet *right);

#endif
