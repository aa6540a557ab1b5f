#include "fields.h"

#include <stdio.h>
#include <string.h>
#include <strings.h>

#include "options.h"
#include "utf8.h"

enum { SHOWN = 60 };

field field_of(const char *text) {
    return (field){text, strlen(text)};
}

static bool is_blank(char c) {
    return c == ' ' || c == '\t';
}

field trimmed(field f) {
    for (; f.length > 0 && is_blank(f.text[0]); f.length--)
        f.text++;
    while (f.length > 0 && is_blank(f.text[f.length - 1]))
        f.length--;
    return f;
}

const char *shown(field f) {
    static char text[SHOWN + 8];
    size_t used = 0;
    while (used < f.length && used < SHOWN) {
        const uint8_t *at = (const uint8_t *)f.text + used;
        size_t length = utf8_first(at, f.length - used).length;
        length = length > 0 ? length : 1;
        if (is_text(at, length))
            memcpy(text + used, at, length);
        else
            memset(text + used, '?', length);
        used += length;
    }
    snprintf(text + used, sizeof text - used, "%s", used < f.length ? "…" : "");
    return text;
}

bool equals(field f, const char *word) {
    return f.length == strlen(word) && !strncasecmp(f.text, word, f.length);
}

const kind_row *named_kind(field f) {
    uint64_t number;
    if (read_decimal(f.text, f.length, 0, &number) == DECIMAL_READ)
        return kind_of(number);
    for (int i = 0; i < KIND_COUNT; i++)
        if (equals(f, kinds[i].wanted->name))
            return &kinds[i];
    return NULL;
}

decimal_verdict read_quantity(field f, const manner *m, uint64_t *units) {
    number_form form = {m->in ? m->of->decimals : 0, m->in ? m->in->over : 1, m->in ? m->in->under : 1, m->comma,
                        m->round};
    return read_number(f.text, f.length, &form, units);
}

const char *quantity_fault(decimal_verdict verdict, field f, const manner *m) {
    static char fault[256];
    const quantity *q = m->of;
    bool other = m->in && (m->in->over != 1 || m->in->under != 1);
    char most[DECIMAL_ROOM];
    switch (verdict) {
    case DECIMAL_WRONG:
        snprintf(fault, sizeof fault, "'%s' is no decimal number from 0 up, with a %s before its decimals", shown(f),
                 m->comma ? "point or a comma" : "point");
        return fault;
    case DECIMAL_TOO_FINE:
        snprintf(fault, sizeof fault, "'%s' has more digits than the unit of 1e-%u %s holds", shown(f), q->decimals,
                 q->unit);
        return fault;
    default:
        write_decimal(most, UINT64_MAX, m->in ? q->decimals : 0);
        snprintf(fault, sizeof fault, "'%s' is over %s%s%s", shown(f), most, other ? " " : "", other ? q->unit : "");
        return fault;
    }
}

bool read_argument(const char *text, const quantity *q, uint64_t *units) {
    manner m = {.of = q, .in = si_unit(q)};
    decimal_verdict verdict = read_quantity(field_of(text), &m, units);
    if (verdict != DECIMAL_READ)
        refuse("%s: %s", q->heading, quantity_fault(verdict, field_of(text), &m));
    return verdict == DECIMAL_READ;
}
