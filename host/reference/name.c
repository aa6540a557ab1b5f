#include "name.h"

#include <stdbool.h>

/* A byte that stands for itself. */
static bool is_plain(uint8_t byte) {
    return (byte >= 'a' && byte <= 'z') || (byte >= 'A' && byte <= 'Z') || (byte >= '0' && byte <= '9') ||
           byte == '-' || byte == '.' || byte == '_' || byte == '~';
}

/* The value of a hexadecimal digit of either case, or -1. */
static int digit_value(uint8_t byte) {
    if (byte >= '0' && byte <= '9')
        return byte - '0';
    if (byte >= 'A' && byte <= 'F')
        return byte - 'A' + 10;
    if (byte >= 'a' && byte <= 'f')
        return byte - 'a' + 10;
    return -1;
}

read_name name_read(const uint8_t *spelled, size_t n) {
    read_name wrong = {.number = 7}, result = {0};
    size_t length = 0;
    for (size_t i = 0; i < n; i++) {
        int byte = spelled[i];
        if (byte == '%') {
            if (n - i < 3 || digit_value(spelled[i + 1]) < 0 || digit_value(spelled[i + 2]) < 0)
                return wrong;
            byte = 16 * digit_value(spelled[i + 1]) + digit_value(spelled[i + 2]);
            i += 2;
        } else if (!is_plain(spelled[i])) {
            return wrong;
        }
        if (length < NAME_MAX_BYTES)
            result.bytes[length] = (uint8_t)byte;
        length++;
    }
    if (length == 0 || length > NAME_MAX_BYTES)
        return (read_name){.number = 8};
    result.length = length;
    return result;
}

written_name name_write(const uint8_t *name, size_t n) {
    static const char digits[] = "0123456789ABCDEF";
    written_name result = {0};
    if (n == 0 || n > NAME_MAX_BYTES)
        return (written_name){.number = 8};
    for (size_t i = 0; i < n; i++) {
        if (is_plain(name[i])) {
            result.bytes[result.length++] = name[i];
            continue;
        }
        result.bytes[result.length++] = '%';
        result.bytes[result.length++] = (uint8_t)digits[name[i] / 16];
        result.bytes[result.length++] = (uint8_t)digits[name[i] % 16];
    }
    return result;
}
