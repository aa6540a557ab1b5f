#include <inttypes.h>
#include <stdlib.h>

#include "columns.h"
#include "common.h"
#include "options.h"
#include "pack.h"
#include "quoting.h"
#include "utf8.h"

/* What columns a text has. */
typedef struct {
    bool names, spelled, si, remarks, spelled_remarks;
} layout;

/* A name that is text stands in the column `name`, any other in `spelled`. */
static bool is_raw(const state *s, layout l) {
    return l.names && is_text(s->name, s->length);
}

static layout layout_of(const uint8_t *sheet, bool si, bool spelled) {
    layout l = {.names = !spelled, .spelled = spelled, .si = si};
    size_t at = HEAD;
    for (unsigned left = record_count(sheet); left > 0; left--) {
        state s = next_state(sheet, &at);
        bool text = is_text(s.remark, s.remark_length);
        l.spelled |= !is_raw(&s, l);
        l.remarks |= text && s.remark_length > 0;
        l.spelled_remarks |= !text;
    }
    return l;
}

static void write_heading(FILE *out, layout l) {
    fprintf(out, "%s%s%s,%s", l.names ? headings[NAME] : "", l.names && l.spelled ? "," : "",
            l.spelled ? headings[SPELLED] : "", headings[KIND]);
    for (int i = 0; l.si && i < GIVEN_COUNT; i++)
        fprintf(out, ",%s", given[i]->heading);
    if (!l.si)
        fprintf(out, ",%s,%s", headings[FIRST], headings[SECOND]);
    if (l.remarks)
        fprintf(out, ",%s", headings[REMARK]);
    if (l.spelled_remarks)
        fprintf(out, ",%s", headings[REMARK_SPELLED]);
    fputc('\n', out);
}

/* A kind that the tool does not know cannot stand in an accepted sheet that the library of the same version took. */
static void write_values(FILE *out, const state *s, layout l) {
    const kind_row *kind = kind_of(s->kind);
    if (!l.si || !kind) {
        fprintf(out, ",%" PRIu64 ",%" PRIu64, s->first, s->second);
        return;
    }
    for (int i = 0; i < GIVEN_COUNT; i++) {
        char text[DECIMAL_ROOM] = "";
        if (given[i] == kind->first)
            write_decimal(text, s->first, kind->first->decimals);
        if (given[i] == kind->second)
            write_decimal(text, s->second, kind->second->decimals);
        fprintf(out, ",%s", text);
    }
}

/* A remark that is text stands in the column `remark`, any other in `remark_spelled`. */
static void write_remark(FILE *out, const state *s, layout l) {
    bool text = is_text(s->remark, s->remark_length);
    if (l.remarks)
        fputc(',', out);
    if (l.remarks && text)
        write_field(out, ',', s->remark, s->remark_length);
    if (l.spelled_remarks)
        fputc(',', out);
    if (!text) {
        char spelled[REMARK_SPELLED_MOST + 1];
        spell_remark(s, spelled);
        fputs(spelled, out);
    }
}

static void write_state(FILE *out, const state *s, layout l) {
    bool raw = is_raw(s, l);
    if (raw)
        write_field(out, ',', s->name, s->length);
    if (l.names && l.spelled)
        fputc(',', out);
    if (!raw)
        fputs(s->spelled, out);
    fprintf(out, ",%u", s->kind);
    write_values(out, s, l);
    write_remark(out, s, l);
    fputc('\n', out);
}

void unpack_to(FILE *out, const uint8_t *sheet, bool si, bool spelled) {
    layout l = layout_of(sheet, si, spelled);
    size_t at = HEAD;
    write_heading(out, l);
    for (unsigned left = record_count(sheet); left > 0; left--) {
        state s = next_state(sheet, &at);
        write_state(out, &s, l);
    }
}

int unpack(const char *input, const char *output, bool si, bool spelled) {
    static uint8_t sheet[SHEET_MOST + 1];
    size_t n, length;
    char *text = NULL;
    if (load_sheet(input, sheet, &n))
        return REFUSED;
    FILE *out = open_memstream(&text, &length);
    if (!out)
        return refuse_file(output_name(output));
    unpack_to(out, sheet, si, spelled);
    int failed = fclose(out) ? refuse_file(output_name(output)) : write_output(output, text, length);
    free(text);
    return failed;
}
