/* Walks and additions through the C entries, each compared with the reference. */
#ifndef HOST_GROWTH_H
#define HOST_GROWTH_H

#include "reference/add.h"
#include "reference/walk.h"
#include "sheets.h"

/* A sheet with what the reference reads of it, lent until another one is. */
typedef struct {
    random_source *r;
    const tried_sheet *sheet;
    const parsed_sheet *parsed;
    const uint8_t *at; /* in some cases null where it has no bytes */
} growing_sheet;

/* Before the first sheet. */
void growth_open(void);

growing_sheet growth_lend(random_source *r, const tried_sheet *sheet, const parsed_sheet *parsed);

/* Each is one call. Where a step gives a line, *line is it, else it is empty; *made is the addition in enough room. */
eas_begun compare_begin(const growing_sheet *s);
eas_step compare_step(const growing_sheet *s, eas_walk walk, size_t room, listing_line *line);
eas_text compare_add(const growing_sheet *s, const typed_state *typed, size_t room, made_sheet *made);

/* A state whose values are out of range, with a spelling that ends at its zero byte. */
typed_state typed_as(const char *spelled, uint32_t kind);

/* A spelling, right or wrong, of a new name or a present one, with any kind and values. */
typed_state random_typed(tried_bytes *spelling, const growing_sheet *s);

/* A beginning, and as many random walks and typed states as this, in rooms around their results. */
void compare_growth(random_source *r, const tried_sheet *sheet, const parsed_sheet *parsed, int tries);

/* Prints what was reached; a failure for everything that was not. */
void growth_check_reach(void);

#endif
