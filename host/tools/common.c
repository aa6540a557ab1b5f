#include "common.h"

#include <errno.h>
#include <stdbool.h>
#include <string.h>

#include "options.h"

bool is_standard(const char *path) {
    return !path || !strcmp(path, "-");
}

const char *input_name(const char *path) {
    return is_standard(path) ? "standard input" : path;
}

const char *output_name(const char *path) {
    return is_standard(path) ? "standard output" : path;
}

int refuse_file(const char *name) {
    return refuse("%s: %s", name, strerror(errno));
}

FILE *open_input(const char *path) {
    FILE *file = is_standard(path) ? stdin : fopen(path, "rb");
    if (!file)
        refuse_file(path);
    return file;
}

int load_bytes(const char *path, uint8_t sheet[SHEET_MOST + 1], size_t *n) {
    FILE *file = open_input(path);
    if (!file)
        return REFUSED;
    *n = fread(sheet, 1, SHEET_MOST + 1, file);
    int failed = ferror(file) ? refuse_file(input_name(path)) : DONE;
    if (file != stdin)
        fclose(file);
    return failed;
}

/* Whether the record at *at ends within the sheet; if so, *at moves past it. */
static bool pass_record(const uint8_t *sheet, size_t n, size_t *at) {
    size_t left = n - *at, name = left > 0 ? sheet[*at] : 0, whole = 1 + name + RECORD_REST;
    if (name == 0 || name > NAME_MOST)
        return false;
    if (sheet_version(sheet) > 1)
        whole += 1u + (left > whole ? sheet[*at + whole] : 0);
    if (left < whole)
        return false;
    *at += whole;
    return true;
}

/* The record is found by checking the sheet cut after each one in turn. */
void tell_refusal(char reason[REFUSAL_ROOM], uint8_t *sheet, size_t n, uint32_t number) {
    char place[40] = "", found[40] = "";
    unsigned count = number > EAS_VERSION_UNKNOWN ? record_count(sheet) : 0;
    size_t at = HEAD;
    if (number > EAS_VERSION_UNKNOWN)
        snprintf(place, sizeof place, "after record %u: ", count);
    if (number == EAS_VERSION_UNKNOWN)
        snprintf(found, sizeof found, ": it is %u", sheet_version(sheet));
    for (unsigned record = 1; record <= count; record++) {
        bool whole = pass_record(sheet, n, &at);
        put_number(sheet + 5, 2, record);
        if (whole && !eas_check(sheet, at))
            continue;
        snprintf(place, sizeof place, "record %u: ", record);
        break;
    }
    snprintf(reason, REFUSAL_ROOM, "%srefusal %u: %s%s", place, number, eas_reason(number), found);
}

static int refuse_sheet(const char *input, uint8_t *sheet, size_t n, uint32_t number) {
    char reason[REFUSAL_ROOM];
    tell_refusal(reason, sheet, n, number);
    return refuse("%s: %s", input, reason);
}

int load_sheet(const char *path, uint8_t sheet[SHEET_MOST + 1], size_t *n) {
    if (load_bytes(path, sheet, n))
        return REFUSED;
    uint32_t number = eas_check(sheet, *n);
    return number ? refuse_sheet(input_name(path), sheet, *n, number) : DONE;
}
