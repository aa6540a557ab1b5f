#include "add.h"

#include <errno.h>
#include <string.h>

#include "columns.h"
#include "common.h"
#include "options.h"

/* A sheet, which grows, and how messages call it. */
typedef struct {
    const char *input;
    uint8_t bytes[SHEET_MOST + 1];
    size_t n;
} growing;

/* A state that was read, its name spelled. */
typedef struct {
    char spelled[SPELLED_MOST + 1];
    row_state state;
    size_t remark_length;
} addition;

/* Tells why a state is not added to an accepted sheet. */
static int refuse_state(const growing *g, const char *spelled, size_t remark, uint32_t number) {
    const uint8_t *name = (const uint8_t *)spelled;
    size_t m = strlen(spelled);
    char more[512] = "";
    if (number == EAS_VERSION_UNKNOWN)
        snprintf(more, sizeof more,
                 ": it is %u; add --forward writes it in version 2, and so does: %s forward -o %s %s",
                 sheet_version(g->bytes), program_invocation_short_name, g->input, g->input);
    if (number == EAS_SPELLING_WRONG || number == EAS_NAME_LENGTH)
        snprintf(more, sizeof more, ": '%s'%s", shown(field_of(spelled)),
                 number == EAS_SPELLING_WRONG ? "; --name takes a name as it is" : "");
    if (number == EAS_NAME_REPEATED)
        snprintf(more, sizeof more, ", in record %u", record_at(g->bytes, eas_find(g->bytes, g->n, name, m).start) + 1);
    if (number == EAS_SHEET_FULL) {
        uint8_t raw[NAME_MOST];
        snprintf(more, sizeof more, ": it would have %zu",
                 length_with(g->bytes, g->n, read_spelled(name, m, raw).length, remark));
    }
    return refuse("%s: refusal %u: %s%s", g->input, number, eas_reason(number), more);
}

/* Spells a name that was typed as it is. */
static bool spell(const char *name, char out[SPELLED_MOST + 1]) {
    eas_text text = eas_spell((const uint8_t *)name, strlen(name), (uint8_t *)out, SPELLED_MOST);
    out[text.length] = '\0';
    if (text.number)
        refuse("--name: refusal %u: %s: '%s' has %zu", text.number, eas_reason(text.number), shown(field_of(name)),
               strlen(name));
    return !text.number;
}

/* Reads what is typed and tells what is wrong with it. */
static bool read_words(const state_words *typed, addition *a) {
    const kind_row *kind = named_kind(field_of(typed->kind));
    a->state.kind = kind;
    a->remark_length = typed->remark ? strlen(typed->remark) : 0;
    if (!kind)
        refuse("%s: refusal %u: %s: '%s'", headings[KIND], EAS_KIND_UNKNOWN, eas_reason(EAS_KIND_UNKNOWN),
               shown(field_of(typed->kind)));
    else if (a->remark_length > REMARK_MOST)
        refuse("--remark: it has %zu bytes, and %d is the most", a->remark_length, REMARK_MOST);
    else
        return read_argument(typed->first, kind->first, &a->state.first) &&
               read_argument(typed->density, kind->second, &a->state.second) &&
               (typed->spelled || spell(typed->name, a->spelled));
    return false;
}

/* Writes a sheet of version 1 in version 2 where that is asked for. */
static bool go_forward(growing *g, bool asked) {
    static uint8_t result[SHEET_MOST];
    if (!asked || sheet_version(g->bytes) != 1)
        return true;
    eas_text text = eas_forward(g->bytes, g->n, result, sizeof result);
    if (text.number) {
        refuse("%s: refusal %u: %s", g->input, text.number, eas_reason(text.number));
        return false;
    }
    memcpy(g->bytes, result, text.length);
    g->n = text.length;
    return true;
}

/* What is typed comes first: where a value was forgotten, the file stands in its place and is no number. */
int add(const char *input, const char *output, const state_words *typed) {
    static growing g;
    static uint8_t grown[SHEET_MOST];
    addition a = {.spelled = ""};
    if (!read_words(typed, &a) || load_to_change(input, output, g.bytes, &g.n))
        return REFUSED;
    g.input = input_name(input);
    if (!go_forward(&g, typed->forward))
        return REFUSED;
    const char *spelled = typed->spelled ? typed->spelled : a.spelled;
    eas_text text = eas_add(g.bytes, g.n, (const uint8_t *)spelled, strlen(spelled), a.state.kind->kind, a.state.first,
                            a.state.second, grown, sizeof grown);
    if (!text.number && text.length + a.remark_length > SHEET_MOST)
        text.number = EAS_SHEET_FULL;
    if (text.number)
        return refuse_state(&g, spelled, a.remark_length, text.number);
    size_t n = append_remark(grown, text.length, (const uint8_t *)typed->remark, a.remark_length);
    return write_output(output, grown, n);
}
