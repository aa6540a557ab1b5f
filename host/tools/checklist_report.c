#include "checklist_report.h"

#include <inttypes.h>
#include <string.h>

#include "checklist_parts.h"
#include "checklist_words.h"
#include "decimal.h"
#include "kinds.h"
#include "utf8.h"

static verdict verdict_of(int check, const tally *t) {
    if (t->faulty || t->encoded || t->misconverted || t->misgrown)
        return FAILED;
    if (t->places == check_places[check])
        return PASSED;
    return t->places ? INCOMPLETE : NO_STATE;
}

/* ---- a fault in words */

static void print_state(const eas_record *record) {
    char first[DECIMAL_ROOM], second[DECIMAL_ROOM];
    const kind_row *kind = kind_of(record->kind);
    write_decimal(first, record->first, kind->first->decimals);
    write_decimal(second, record->second, kind->second->decimals);
    printf("%*s%s %s %s, %s %s %s\n", INDENT, "", kind->first->name, first, kind->first->unit, kind->second->name,
           second, kind->second->unit);
}

void print_due(const named_state *s) {
    uint32_t number = s ? s->right.number : 9;
    if (number)
        printf("nothing: %s", eas_reason(number));
    else if (s->allowed)
        printf("%.6f %s", in_units(&s->record, s->truth.value), kind_of(s->record.kind)->wanted->unit);
    else
        printf("about %.3f %s", s->right.value, kind_of(s->record.kind)->wanted->unit);
}

static const char *const way_words[WAYS] = {"search", "plot mark", "listing line", "run list",
                                            "walk",   "record",    "row",          "remark"};

enum { TEXT_ROOM = 192 };

static bool is_own(cause c) {
    return c == RIGHT || c == BY_CONVERSION || c == BY_ADDITION || c == BY_ORDER;
}

/* Which other state it is that a way shows or gives. */
void print_other(const asked_sheet *sheet, size_t other) {
    if (other == SIZE_MAX)
        return;
    printf(", that is ");
    print_state_name(&sheet->states[other]);
    printf(" in row %zu", other + 1);
}

/* A part of the sheet in words. */
static void describe_part(char text[TEXT_ROOM], way w, const eas_record *record, const eas_part *remark) {
    uint32_t number = w == BY_REMARK ? remark->number : record->number;
    if (number)
        snprintf(text, TEXT_ROOM, "nothing: %s", eas_reason(number));
    else if (w == BY_REMARK)
        snprintf(text, TEXT_ROOM, "%zu bytes from %zu on", remark->length, remark->start);
    else
        snprintf(text, TEXT_ROOM, "kind %" PRIu32 ", %" PRIu64 " and %" PRIu64 ", its name %zu bytes from %zu on",
                 record->kind, record->first, record->second, record->length, record->start);
}

static void print_part(const fault *f, way w) {
    char text[TEXT_ROOM];
    eas_record record = record_given(f->name, w), due = record_due(&f->sheet->parsed, f->name);
    eas_part remark = f->name->remark, remark_is = remark_due(&f->sheet->parsed, f->name);
    describe_part(text, w, &record, &remark);
    printf("%*s%-13s %s (%s", INDENT, "", way_words[w], text, cause_words[f->causes[w]]);
    if (!is_own(f->causes[w]) && !part_is_right(&f->sheet->parsed, f->name, w)) {
        print_other(f->sheet, state_given(f->sheet, f->name, w));
        describe_part(text, w, &due, &remark_is);
        printf("; right is %s", text);
    }
    printf(")\n");
}

static void print_shown(const fault *f, way w) {
    const named_state *state = &f->sheet->states[f->name->state];
    shown s = shown_by(f->name, w);
    char text[TEXT_ROOM];
    if (!s.readable)
        snprintf(text, sizeof text, "no line that can be read");
    else if (s.number)
        snprintf(text, sizeof text, "nothing: %s", eas_reason(s.number));
    else if (f->name->absent)
        snprintf(text, sizeof text, "a value");
    else
        snprintf(text, sizeof text, "%.6f %s", shown_in_units(&state->record, &s),
                 kind_of(state->record.kind)->wanted->unit);
    printf("%*s%-13s %s (%s", INDENT, "", way_words[w], text, cause_words[f->causes[w]]);
    print_other(f->sheet, is_own(f->causes[w]) ? SIZE_MAX : state_shown(f->sheet, f->name, &s));
    printf(")\n");
}

static void print_fault(const tally *t) {
    const fault *f = &t->first;
    const named_state *state = &f->sheet->states[f->name->state];
    printf("%*swrong for %u %s, first ", INDENT, "", t->faulty, t->faulty == 1 ? "name" : "names");
    print_name(f->name->spelled, f->name->length);
    printf(" of %s\n", f->sheet->path);
    if (!f->name->absent)
        print_state(&state->record);
    printf("%*s%-13s ", INDENT, "", "right is");
    print_due(f->name->absent ? NULL : state);
    printf("\n");
    for (way w = 0; w < WAYS; w++)
        if (is_asked_by(f->name, w))
            (is_part(w) ? print_part : print_shown)(f, w);
}

/* A name of the sheet letter for letter, spelled where that is no text. */
static void print_raw(const asked_sheet *sheet, const named_state *s) {
    const uint8_t *name = sheet->bytes + s->record.start;
    if (is_text(name, s->record.length))
        printf("%.*s", (int)s->record.length, (const char *)name);
    else
        printf("%.*s", (int)s->spelled.length, (const char *)s->spelled.bytes);
}

/* A name that still is as it was encoded on export. */
static void print_encoded(const tally *t) {
    const asked_name *name = t->encoded_name;
    const named_state *s = &t->encoded_in->states[name->state];
    printf("%*s%u %s encoded on export and never decoded, first ", INDENT, "", t->encoded,
           t->encoded == 1 ? "name was" : "names were");
    print_raw(t->encoded_in, s);
    printf("\n%*sThe sheet holds this name with its percent signs, letter for letter. A run list that says\n", INDENT,
           "");
    printf("%*s%.*s finds no state, and the curve stays blank:\n", INDENT, "", (int)name->length,
           (const char *)name->spelled);
    const listing_line *listed = &name->lines[BY_LIST];
    printf("%*s%.*s", INDENT + 4, "", (int)listed->length, listed->bytes);
    printf("%*sOnly %.*s finds it. Decode the names and export the sheet again.\n", INDENT, "", (int)s->spelled.length,
           (const char *)s->spelled.bytes);
}

/* A sheet whose conversion is refused, or not, where that is wrong, or does not come back. */
static void print_misconverted(const asked_sheet *sheet) {
    const conversion_result *result = &sheet->conversion;
    unsigned other = 3 - sheet_version(sheet->bytes);
    if (result->number != result->due)
        printf("%*sconverting %s to version %u: the library says \"%s\", right is \"%s\"\n", INDENT, "", sheet->path,
               other, eas_reason(result->number), eas_reason(result->due));
    if (!result->returns)
        printf("%*sconverting %s to version %u and back does not return the same bytes\n", INDENT, "", sheet->path,
               other);
}

/* A sheet to which a state is not added as it must be, or is where it must be refused. */
static void print_misgrown(const asked_sheet *sheet) {
    const addition_result *result = &sheet->addition;
    printf("%*sadding a state to %s: ", INDENT, "", sheet->path);
    if (result->number != result->due)
        printf("the library says \"%s\", right is \"%s\"\n", eas_reason(result->number), eas_reason(result->due));
    else
        printf("%s of the result is wrong\n", result->wrong);
}

/* ---- a check in words */

static void print_missing(int check, const tally *t) {
    printf("%*smissing:\n", INDENT, "");
    for (int p = 0; p < PLACES; p++)
        if ((check_places[check] & ~t->places) >> p & 1)
            printf("%*s- %s\n", INDENT + 2, "", place_words[p]);
}

/* Where a check lacks a state, the strict report says that it is no pass; the other, that the sheet has none. */
static void print_verdict(verdict v, const tally *t, const report *r) {
    static const char *const lacking[] = {[INCOMPLETE] = "INCOMPLETE", [NO_STATE] = "NO STATE TO LOOK AT"};
    if (v == FAILED)
        printf("FAILED");
    else if (v != PASSED && r->strict)
        printf("%s, no pass for %s", lacking[v], r->whose);
    else if (v == NO_STATE)
        printf("not in %s", r->whose);
    else
        printf("PASSED");
    if (t->example && (v == PASSED || (v == INCOMPLETE && !r->strict))) {
        printf(" at %u %s, such as ", t->telling, t->telling == 1 ? "state" : "states");
        print_state_name(t->example);
    }
    printf("%s\n", v == INCOMPLETE && !r->strict ? "; other places are not in the sheet" : "");
}

static verdict print_check(int check, const tally *t, const report *r) {
    verdict v = verdict_of(check, t);
    printf("%*s%-34s ", LEFT, "", line_titles[check]);
    print_verdict(v, t, r);
    if (t->encoded)
        print_encoded(t);
    if (t->misconverted)
        print_misconverted(t->misconverted);
    if (t->misgrown)
        print_misgrown(t->misgrown);
    if (t->faulty)
        print_fault(t);
    if (r->strict && (v == NO_STATE || v == INCOMPLETE))
        print_missing(check, t);
    return v;
}

/* The further lines are counted apart, and a sheet that cannot be read is one of them. */
static void print_sum(const int counts[VERDICTS], int further, const report *r) {
    printf("%*sOf five checks %d passed, ", LEFT, "", counts[PASSED]);
    if (r->strict)
        printf("%d failed, %d lack a state", counts[FAILED], counts[INCOMPLETE] + counts[NO_STATE]);
    else
        printf("%d passed in part, %d failed, %d found no state in %s", counts[INCOMPLETE], counts[FAILED],
               counts[NO_STATE], r->whose);
    if (further > 0)
        printf("; %d further %s FAILED", further, further == 1 ? "line" : "lines");
    printf(".\n\n");
}

bool print_checks(const tally tallies[TALLIES], const report *r) {
    int counts[VERDICTS] = {0}, further = r->unread;
    for (int c = 0; c < CHECKS; c++)
        counts[print_check(c, &tallies[c], r)]++;
    for (int c = CHECKS; c < TALLIES; c++) {
        const tally *t = &tallies[c];
        if (c != OTHERS || t->telling || t->faulty)
            further += print_check(c, t, r) == FAILED;
    }
    print_sum(counts, further, r);
    return further == 0 && counts[FAILED] == 0 && (!r->strict || counts[PASSED] == CHECKS);
}

void print_unread(const char *what, const char *path, const char *reason) {
    printf("%*sThe %s can be read%*s FAILED\n%*s%s: %s\n", INDENT, "", what, (int)(16 - strlen(what)), "", INDENT, "",
           path, reason);
}
