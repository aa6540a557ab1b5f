#include "utf8.h"

utf8_point utf8_first(const uint8_t *bytes, size_t n) {
    static const uint32_t least[] = {0, 0, 0x80, 0x800, 0x10000};
    const utf8_point wrong = {0, 0};
    if (n == 0)
        return wrong;
    size_t length = bytes[0] < 0x80 ? 1 : bytes[0] >= 0xf0 ? 4 : bytes[0] >= 0xe0 ? 3 : bytes[0] >= 0xc0 ? 2 : 0;
    if (length == 0 || length > n || bytes[0] >= 0xf8)
        return wrong;
    uint32_t point = length == 1 ? bytes[0] : bytes[0] & (0x7fu >> length);
    for (size_t i = 1; i < length; i++) {
        if ((bytes[i] & 0xc0) != 0x80)
            return wrong;
        point = point << 6 | (bytes[i] & 0x3fu);
    }
    if (point < least[length] || point > 0x10ffff || (point >= 0xd800 && point < 0xe000))
        return wrong;
    return (utf8_point){point, length};
}

/* Controls, line and paragraph ends, marks of direction, the byte-order mark, and points that stand for nothing. */
static bool is_hidden(uint32_t point) {
    return point < 0x20 || (point >= 0x7f && point < 0xa0) || point == 0xad || (point >= 0x200b && point <= 0x200f) ||
           (point >= 0x2028 && point <= 0x202e) || (point >= 0x2060 && point <= 0x206f) ||
           (point >= 0xfdd0 && point <= 0xfdef) || point == 0xfeff || (point & 0xfffe) == 0xfffe;
}

bool is_text(const uint8_t *bytes, size_t n) {
    for (size_t at = 0; at < n;) {
        utf8_point first = utf8_first(bytes + at, n - at);
        if (first.length == 0 || is_hidden(first.point))
            return false;
        at += first.length;
    }
    return true;
}
