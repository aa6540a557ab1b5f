#include "line.h"

#include <inttypes.h>
#include <stdio.h>

#include "name.h"
#include "wide.h"

listing_line line_of(const uint8_t *spelled, size_t m, const eas_answer *answer) {
    written_name shown = {.length = 1, .bytes = {'?'}};
    read_name name = name_read(spelled, m);
    if (name.number == 0)
        shown = name_write(name.bytes, name.length);
    listing_line line;
    int length = 0;
    if (answer->number != 0)
        length = snprintf(line.bytes, sizeof line.bytes, "%.*s ! %" PRIu32 "\n", (int)shown.length,
                          (const char *)shown.bytes, answer->number);
    else
        length =
            snprintf(line.bytes, sizeof line.bytes, "%.*s %c %" PRId64 " %" PRId64 " %" PRId64 "\n", (int)shown.length,
                     (const char *)shown.bytes, (int)answer->letter, answer->y, answer->z, answer->value);
    line.length = (size_t)length;
    return line;
}

eas_mark mark_of(const eas_answer *answer) {
    if (answer->number != 0)
        return (eas_mark){.blank = answer->number};
    int64_t up = answer->letter == 'P' ? (int64_t)floor_divide(answer->value, 1000000) : answer->value;
    return (eas_mark){.point = {.across = (double)(answer->y + 7000000), .up = (double)up}};
}
