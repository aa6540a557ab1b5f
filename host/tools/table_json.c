#include <stdbool.h>
#include <string.h>

#include "decimal.h"
#include "quoting.h"
#include "table.h"

/* An object that is being written: whether another stands before it. */
typedef struct {
    FILE *out;
    bool follows;
} writing;

static void write_quantity(FILE *out, const char *key, const quantity *q, const char *number) {
    fprintf(out, ", \"%s\": {\"quantity\": \"%s\", \"value\": %s, \"unit\": \"%s\"}", key, q->name, number, q->unit);
}

static void write_text(FILE *out, const char *key, const void *text, size_t n) {
    fprintf(out, ", \"%s\": ", key);
    write_json(out, text, n);
}

static void write_state(FILE *out, const table_row *r) {
    char number[DECIMAL_ROOM], remark[REMARK_SPELLED_MOST + 1];
    fprintf(out, "\"number\": %u", r->number);
    write_text(out, "name", r->s.name, r->s.length);
    write_text(out, "spelled", r->s.spelled, r->s.spelled_length);
    write_text(out, "kind", r->kind->wanted->name, strlen(r->kind->wanted->name));
    write_decimal(number, r->s.first, r->kind->first->decimals);
    write_quantity(out, "first", r->kind->first, number);
    write_decimal(number, r->s.second, r->kind->second->decimals);
    write_quantity(out, "second", r->kind->second, number);
    write_text(out, "remark", r->s.remark, r->s.remark_length);
    write_text(out, "remark_spelled", remark, spell_remark(&r->s, remark));
}

static void write_answer(FILE *out, const table_row *r) {
    char number[DECIMAL_ROOM];
    if (r->refusal) {
        fprintf(out, ", \"answer\": null, \"refusal\": %u", r->refusal);
        write_text(out, "reason", r->reason, strlen(r->reason));
        return;
    }
    write_value(number, r->value, r->kind->wanted->decimals);
    write_quantity(out, "answer", r->kind->wanted, number);
    fputs(", \"refusal\": null, \"reason\": null", out);
}

static void write_row(void *data, const table_row *r) {
    writing *w = data;
    fputs(w->follows ? ",\n{" : "\n{", w->out);
    w->follows = true;
    if (r->line)
        fprintf(w->out, "\"line\": %lu, ", r->line);
    if (r->number) {
        write_state(w->out, r);
    } else {
        fputs("\"number\": null", w->out);
        write_text(w->out, "asked", r->asked.text, r->asked.length);
    }
    write_answer(w->out, r);
    fputc('}', w->out);
}

void write_table_json(FILE *out, const table_source *source) {
    writing w = {out, false};
    fputc('[', out);
    each_row(source, &(table_taker){write_row, &w});
    fputs("\n]\n", out);
}
