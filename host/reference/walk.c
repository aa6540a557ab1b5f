#include "walk.h"

#include <stdbool.h>
#include <string.h>

#include "name.h"

eas_begun walk_begin(const parsed_sheet *parsed) {
    return (eas_begun){.number = parsed->number, .walk = {.count = (uint32_t)parsed->count}};
}

const eas_record *walk_next(const parsed_sheet *parsed, eas_walk walk) {
    bool left = walk.given < walk.count && walk.given < parsed->count;
    return left ? &parsed->records[walk.given] : NULL;
}

listing_line record_line(const uint8_t *sheet, const eas_record *record, const eas_answer *answer) {
    written_name spelled = name_write(sheet + record->start, record->length);
    return line_of(spelled.bytes, spelled.length, answer);
}

const char *judge_step(const parsed_sheet *parsed, eas_walk walk, const listing_line *line, size_t room, eas_step got,
                       const uint8_t *written) {
    bool given = walk_next(parsed, walk) != NULL && room >= line->length;
    uint32_t number = parsed->number;
    if (walk_next(parsed, walk) != NULL && !given)
        number = 14;
    if (got.number != number)
        return "the number";
    if (got.length != (given ? line->length : 0))
        return "the length";
    if (got.walk.given != walk.given + given || got.walk.count != walk.count)
        return "the walk";
    return memcmp(written, line->bytes, got.length) != 0 ? "a byte" : NULL;
}
