#include "columns.h"

#include <string.h>

#include "options.h"

const char *const headings[FIRST_GIVEN] = {"name", "spelled", "kind", "first", "density", "remark", "remark_spelled"};

static int column_given(const quantity *q) {
    int i = 0;
    while (given[i] != q)
        i++;
    return FIRST_GIVEN + i;
}

/* The column with a heading, and its unit; COLUMNS where there is none. */
static int column_called(field f, const unit **in) {
    for (int i = 0; i < GIVEN_COUNT; i++)
        if (equals(f, given[i]->heading)) {
            *in = si_unit(given[i]);
            return FIRST_GIVEN + i;
        }
    for (int column = 0; column < FIRST_GIVEN; column++)
        if (equals(f, headings[column]))
            return column;
    *in = unit_called(f);
    return *in ? column_given((*in)->of) : COLUMNS;
}

field cell(const columns *c, const row *r, int column) {
    size_t at = c->place[column];
    field f = at > 0 && at <= r->count ? r->fields[at - 1] : (field){"", 0};
    return column == NAME || column == REMARK ? f : trimmed(f);
}

bool is_blank_row(const row *r) {
    for (size_t i = 0; i < r->count; i++)
        if (trimmed(r->fields[i]).length > 0)
            return false;
    return true;
}

/* Whether some kind can be given in full by the text's columns. */
static bool has_values(const columns *c) {
    const size_t *place = c->place;
    if (place[KIND] && place[FIRST] && place[SECOND])
        return true;
    for (int i = 0; i < KIND_COUNT; i++)
        if ((place[column_given(kinds[i].first)] || (place[KIND] && place[FIRST])) &&
            (place[column_given(kinds[i].second)] || place[SECOND]))
            return true;
    return false;
}

/* Whether an earlier kind is given by the same columns. */
static bool repeats_columns(int kind) {
    for (int i = 0; i < kind; i++)
        if (kinds[i].first == kinds[kind].first && kinds[i].second == kinds[kind].second)
            return true;
    return false;
}

/* The columns that the kinds need, for messages. */
static const char *wanted_columns(void) {
    static char text[256];
    size_t used = 0;
    for (int i = 0; i < KIND_COUNT && used < sizeof text; i++)
        if (!repeats_columns(i))
            used += (size_t)snprintf(text + used, sizeof text - used, "%s%s with %s", i > 0 ? ", or " : "",
                                     kinds[i].first->heading, kinds[i].second->heading);
    return text;
}

/* Every heading of a text that has one, for messages, those that are none with the nearest right one. */
static const char *found_headings(const row *r) {
    static char text[COMPLAINT_ROOM - 240];
    size_t used = 0;
    const unit *in;
    text[0] = '\0';
    for (size_t i = 0; i < r->count && used < sizeof text; i++) {
        field f = trimmed(r->fields[i]);
        const char *near = column_called(f, &in) == COLUMNS ? nearest_heading(f, headings, FIRST_GIVEN) : NULL;
        if (f.length > 0)
            used += (size_t)snprintf(text + used, sizeof text - used, "%s'%s'%s%s%s", used > 0 ? ", " : "", shown(f),
                                     near ? " (" : "", near ? near : "", near ? "?)" : "");
    }
    if (used >= sizeof text)
        memcpy(text + sizeof text - sizeof "…", "…", sizeof "…");
    return text;
}

static void note_unread(const columns *c, const row *r, field f) {
    const char *near = nearest_heading(f, headings, FIRST_GIVEN);
    refuse("%s: line %lu: note: the column '%s' is not read%s%s%s", c->told->input, r->line, shown(f),
           near ? "; is it to be '" : "", near ? near : "", near ? "'?" : "");
}

static void note_all_unread(const columns *c, const row *r) {
    const unit *in;
    for (size_t i = 0; i < r->count; i++) {
        field f = trimmed(r->fields[i]);
        if (f.length > 0 && column_called(f, &in) == COLUMNS)
            note_unread(c, r, f);
    }
}

/* Notes which column each heading is. */
static void place_headings(columns *c, const row *r) {
    c->width = r->count;
    for (size_t i = 0; i < r->count; i++) {
        const unit *in = NULL;
        field f = trimmed(r->fields[i]);
        int column = column_called(f, &in);
        if (column == COLUMNS)
            continue;
        if (c->place[column] && in)
            complain(c->told, r, "two columns have the %s: '%s' is the second", in->of->name, shown(f));
        else if (c->place[column])
            complain(c->told, r, "the heading '%s' stands twice", shown(f));
        else
            c->place[column] = i + 1;
        if (column >= FIRST_GIVEN)
            c->in[column - FIRST_GIVEN] = in;
    }
}

/* Whether the heading `density`, which is for whole units, stands beside a quantity in another unit. */
static bool lacks_unit(const columns *c) {
    bool beside = false;
    for (int i = 0; i < GIVEN_COUNT; i++)
        beside |= c->place[FIRST_GIVEN + i] > 0;
    return c->place[SECOND] && !c->place[FIRST] && beside;
}

bool read_headings(columns *c, const row *r, bool needs_names, bool tells) {
    place_headings(c, r);
    if (needs_names && !c->place[NAME] && !c->place[SPELLED])
        complain(c->told, r,
                 "no heading: the first row needs a column 'name', or 'spelled' for names in percent form; found: %s",
                 found_headings(r));
    else if (!has_values(c))
        complain(c->told, r, "no columns for a state: %s, or kind, first and density in whole units; found: %s",
                 wanted_columns(), found_headings(r));
    else if (lacks_unit(c))
        complain(c->told, r,
                 "the column 'density' has no unit: is it to be 'density_kg_m3'? (whole units of 1e-11 kg/m³ stand "
                 "in it only beside a column 'first')");
    if (tells && !c->told->count)
        note_all_unread(c, r);
    return c->told->count == 0;
}

bool may_have_comments(const columns *c) {
    for (int column = 0; column < COLUMNS; column++)
        if (c->place[column] == 1)
            return column != NAME && column != REMARK;
    return false;
}

static bool has_both(const columns *c, const row *r, const kind_row *kind) {
    return cell(c, r, column_given(kind->first)).length > 0 &&
           (cell(c, r, column_given(kind->second)).length > 0 || cell(c, r, SECOND).length > 0);
}

/* The first kind whose values the row has, where it has not those of two; else null. */
static const kind_row *derived_kind(const columns *c, const row *r) {
    const kind_row *first = NULL;
    for (int i = 0; i < KIND_COUNT; i++) {
        const kind_row *kind = &kinds[i];
        if (!has_both(c, r, kind))
            continue;
        if (first && (first->first != kind->first || first->second != kind->second)) {
            complain(c->told, r, "values of two kinds (%s and %s): a column 'kind' must say which is meant",
                     first->first->heading, kind->first->heading);
            return NULL;
        }
        first = first ? first : kind;
    }
    if (!first)
        complain(c->told, r, "no kind, and not %s", wanted_columns());
    return first;
}

static const kind_row *read_kind(const columns *c, const row *r) {
    field f = cell(c, r, KIND);
    const kind_row *kind = f.length > 0 ? named_kind(f) : derived_kind(c, r);
    if (f.length > 0 && !kind)
        complain(c->told, r, "refusal %u: %s: '%s'", EAS_KIND_UNKNOWN, eas_reason(EAS_KIND_UNKNOWN), shown(f));
    return kind;
}

/* How a text calls the column that a value stands in. */
static const char *heading_of(const columns *c, const quantity *q, int whole, bool has_unit) {
    static char text[64];
    const unit *in = c->in[column_given(q) - FIRST_GIVEN];
    if (!has_unit)
        return headings[whole];
    if (in == si_unit(q))
        return q->heading;
    snprintf(text, sizeof text, "%s in %s", q->name, in->name);
    return text;
}

/* Reads a quantity from its own column or, in whole units, from the other. */
static bool read_value(columns *c, const row *r, const quantity *q, int whole, uint64_t *units) {
    field own = cell(c, r, column_given(q)), other = cell(c, r, whole), f = own.length > 0 ? own : other;
    bool has_unit = own.length > 0;
    if (own.length > 0 && other.length > 0)
        return complain(c->told, r, "the %s is given twice, in %s and in %s", q->name, heading_of(c, q, whole, true),
                        headings[whole]);
    if (f.length == 0)
        return complain(c->told, r, "the %s is missing", q->name);
    manner m = {q, has_unit ? c->in[column_given(q) - FIRST_GIVEN] : NULL, c->comma, c->round};
    decimal_verdict verdict = read_quantity(f, &m, units);
    c->told->rounded += verdict == DECIMAL_ROUNDED;
    if (verdict == DECIMAL_READ || verdict == DECIMAL_ROUNDED)
        return true;
    if (verdict == DECIMAL_TOO_FINE && !c->round)
        return complain_of_digits(c->told, r, heading_of(c, q, whole, has_unit), quantity_fault(verdict, f, &m));
    return complain(c->told, r, "%s: %s", heading_of(c, q, whole, has_unit), quantity_fault(verdict, f, &m));
}

bool read_row_state(columns *c, const row *r, row_state *s) {
    for (size_t i = c->width; i < r->count; i++)
        if (trimmed(r->fields[i]).length > 0)
            return complain(c->told, r, "%zu fields where the heading has %zu", r->count, c->width);
    s->kind = read_kind(c, r);
    return s->kind && read_value(c, r, s->kind->first, FIRST, &s->first) &&
           read_value(c, r, s->kind->second, SECOND, &s->second);
}
