/* The words of the checklist's report: its lines, the states that they need, the mistakes, and names. */
#ifndef CHECKLIST_WORDS_H
#define CHECKLIST_WORDS_H

#include "checklist_judge.h"

/* A line's title; a state that it needs, with one that would do; what is wrong. */
extern const char *const line_titles[TALLIES];
extern const char *const place_words[PLACES];
extern const char *const cause_words[CAUSES];

/* Prints a name as people write it, its spelling behind it where that is another. */
void print_name(const uint8_t *spelled, size_t n);
void print_state_name(const named_state *s);

#endif
