#include "quoting.h"

#include <csv.h>
#include <stdbool.h>
#include <string.h>

#include "utf8.h"

static bool is_plain(char delimiter, const char *text, size_t n) {
    static const char special[] = {',', ';', '\t', '"', '\r', '\n', '\0'};
    for (size_t i = 0; i < sizeof special; i++)
        if ((special[i] != ',' || delimiter == ',') && memchr(text, special[i], n))
            return false;
    return n == 0 || (text[0] != ' ' && text[n - 1] != ' ' && text[0] != '#');
}

void write_field(FILE *out, char delimiter, const void *text, size_t n) {
    if (is_plain(delimiter, text, n))
        fwrite(text, 1, n, out);
    else
        csv_fwrite(out, text, n);
}

static bool is_utf8(const uint8_t *bytes, size_t n) {
    for (size_t at = 0, length; at < n; at += length) {
        length = utf8_first(bytes + at, n - at).length;
        if (length == 0)
            return false;
    }
    return true;
}

void write_json(FILE *out, const void *text, size_t n) {
    const uint8_t *bytes = text;
    if (!is_utf8(bytes, n)) {
        fputs("null", out);
        return;
    }
    fputc('"', out);
    for (size_t i = 0; i < n; i++)
        if (bytes[i] < 0x20 || bytes[i] == 0x7f)
            fprintf(out, "\\u%04x", bytes[i]);
        else
            fprintf(out, "%s%c", bytes[i] == '"' || bytes[i] == '\\' ? "\\" : "", bytes[i]);
    fputc('"', out);
}
