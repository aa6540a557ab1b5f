#include "table.h"

#include <string.h>

#include "common.h"
#include "options.h"

typedef void table_writer(FILE *out, const table_source *source);

static const struct {
    const char *name;
    table_writer *write;
} forms[] = {{"text", write_table_text}, {"csv", write_table_csv}, {"json", write_table_json}};

enum { FORM_COUNT = sizeof forms / sizeof *forms };

/* The writer of a form; ends the program where there is none. */
static table_writer *writer_of(const char *form) {
    for (int i = 0; i < FORM_COUNT; i++)
        if (!form || !strcmp(form, forms[i].name))
            return forms[i].write;
    misuse("'%s' is none of text, csv and json", form);
}

/* Tells the lines of a run list that cannot be read. */
static void tell_unread(void *data, const table_row *r) {
    const char *names = data;
    if (r->refusal == EAS_SPELLING_WRONG || r->refusal == EAS_NAME_LENGTH)
        refuse("%s: line %lu: refusal %u: %s", names, r->line, r->refusal, r->reason);
}

static int load_names(const char *path, uint8_t names[SHEET_MOST + 1], size_t *n) {
    if (load_bytes(path, names, n))
        return REFUSED;
    return *n > SHEET_MOST ? refuse("%s: refusal %u: %s", path, EAS_LIST_TOO_LONG, eas_reason(EAS_LIST_TOO_LONG))
                           : DONE;
}

int table(const char *input, const char *output, const char *form, const char *names) {
    static uint8_t sheet[SHEET_MOST + 1], list[SHEET_MOST + 1];
    table_writer *write = writer_of(form);
    table_source source = {.sheet = sheet, .names = names ? list : NULL};
    if (names && is_standard(names) && is_standard(input))
        misuse("the sheet and the run list cannot both be standard input");
    if (load_sheet(input, sheet, &source.n) || (names && load_names(names, list, &source.names_length)))
        return REFUSED;
    if (names)
        each_row(&source, &(table_taker){tell_unread, (void *)input_name(names)});
    FILE *out = open_output(output);
    if (!out)
        return REFUSED;
    write(out, &source);
    return close_output(out, output);
}
