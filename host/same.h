/* Whether two results of the library are the same, field by field: their padding may differ. */
#ifndef HOST_SAME_H
#define HOST_SAME_H

#include <stdbool.h>
#include <string.h>

#include "airstate.h"

static inline bool same_mark(eas_mark a, eas_mark b) {
    return a.blank == b.blank && a.point.across == b.point.across && a.point.up == b.point.up;
}

static inline bool same_part(eas_part a, eas_part b) {
    return a.number == b.number && a.start == b.start && a.length == b.length;
}

static inline bool same_walk(eas_walk a, eas_walk b) {
    return a.given == b.given && a.count == b.count;
}

static inline bool same_record(eas_record a, eas_record b) {
    return a.number == b.number && a.kind == b.kind && a.first == b.first && a.second == b.second &&
           a.start == b.start && a.length == b.length;
}

/* Records of two sheets: equal in all but where their names stand, which hold the same bytes. */
static inline bool same_but_place(const uint8_t *sheet, eas_record a, const uint8_t *other, eas_record b) {
    if (a.number != b.number || a.kind != b.kind || a.first != b.first || a.second != b.second || a.length != b.length)
        return false;
    return a.number ? a.start == 0 && b.start == 0 : !memcmp(sheet + a.start, other + b.start, a.length);
}

#endif
