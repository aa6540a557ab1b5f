#include "lists.h"

#include <inttypes.h>
#include <stdio.h>
#include <string.h>

#include "reference/line.h"

static void add_name(name_list *list, const uint8_t *bytes, size_t n) {
    for (size_t i = 0; i < n && list->n < LIST_MAX_BYTES; i++)
        list->bytes[list->n++] = bytes[i];
}

void random_list(name_list *list, random_source *r, const parsed_sheet *parsed, const tried_sheet *sheet) {
    tried_bytes spelling;
    uint64_t lines = random_below(r, 12);
    list->n = 0;
    for (uint64_t i = 0; i < lines; i++) {
        spelling.n = 0;
        if (parsed->count > 0 && random_below(r, 3) != 0) {
            const eas_record *record = &parsed->records[random_below(r, parsed->count)];
            random_spelling_of(&spelling, r, sheet->bytes + record->start, record->length);
        } else if (random_below(r, 4) != 0) {
            random_spelling(&spelling, r);
        }
        add_name(list, spelling.bytes, spelling.n);
        if (i + 1 < lines || random_below(r, 2))
            add_name(list, (const uint8_t *)"\n", 1);
    }
}

void edge_list(name_list *list, int i) {
    list->n = LIST_MAX_BYTES - 1 + (size_t)(i % 3);
    memset(list->bytes, 'a', list->n);
    for (size_t at = 99; i % 6 >= 3 && at < list->n; at += 100)
        list->bytes[at] = '\n';
    if (i >= 6)
        list->bytes[list->n - 1] = '\n';
}

static void append(listing_text *out, const char *bytes, size_t n) {
    if (out->n + n <= sizeof out->bytes) {
        memcpy(out->bytes + out->n, bytes, n);
        out->n += n;
    }
}

static void append_line(listing_text *out, const tried_sheet *sheet, const uint8_t *spelled, size_t m) {
    eas_answer answer = eas_search(sheet->bytes, sheet->n, spelled, m);
    listing_line line = line_of(spelled, m, &answer);
    append(out, line.bytes, line.length);
}

/* Document 01, Listing program: the sheet first, then the list's length, then a line for each name. */
void work_out_listing(listing_text *out, const parsed_sheet *parsed, const tried_sheet *sheet, const name_list *list) {
    size_t start = 0;
    out->n = 0;
    if (parsed->number != 0) {
        char refused[32];
        append(out, refused, (size_t)snprintf(refused, sizeof refused, "sheet ! %" PRIu32 "\n", parsed->number));
        return;
    }
    if (list->n > LIST_MAX_BYTES) {
        append(out, "list ! 15\n", 10);
        return;
    }
    for (size_t i = 0; i < list->n; i++) {
        if (list->bytes[i] != '\n')
            continue;
        append_line(out, sheet, list->bytes + start, i - start);
        start = i + 1;
    }
    if (start < list->n)
        append_line(out, sheet, list->bytes + start, list->n - start);
}
