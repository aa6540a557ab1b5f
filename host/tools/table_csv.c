#include <string.h>

#include "decimal.h"
#include "quoting.h"
#include "table.h"
#include "utf8.h"

static const char heading[] = "number,name,spelled,kind,pressure_Pa,energy_J_kg,density_kg_m3,answer,unit,refusal,"
                              "reason,remark,remark_spelled\n";

/* A name that is text stands in the column `name`, any other in `spelled`, and so does what finds no state. */
static void write_name(FILE *out, const table_row *r) {
    bool text = r->number && is_text(r->s.name, r->s.length);
    if (text)
        write_field(out, ',', r->s.name, r->s.length);
    fputc(',', out);
    if (!r->number)
        write_field(out, ',', r->asked.text, r->asked.length);
    else if (!text)
        fputs(r->s.spelled, out);
}

static void write_values(FILE *out, const table_row *r) {
    for (int i = 0; i < GIVEN_COUNT; i++) {
        char text[DECIMAL_ROOM] = "";
        if (r->kind && given[i] == r->kind->first)
            write_decimal(text, r->s.first, given[i]->decimals);
        if (r->kind && given[i] == r->kind->second)
            write_decimal(text, r->s.second, given[i]->decimals);
        fprintf(out, ",%s", text);
    }
}

static void write_answer(FILE *out, const table_row *r) {
    char text[DECIMAL_ROOM];
    if (r->refusal || !r->kind) {
        fprintf(out, ",,,%u,", r->refusal);
        write_field(out, ',', r->reason, strlen(r->reason));
        return;
    }
    write_value(text, r->value, r->kind->wanted->decimals);
    fprintf(out, ",%s,%s,,", text, r->kind->wanted->unit);
}

static void write_remark(FILE *out, const state *s) {
    char spelled[REMARK_SPELLED_MOST + 1] = "";
    bool text = is_text(s->remark, s->remark_length);
    fputc(',', out);
    if (text && s->remark_length > 0)
        write_field(out, ',', s->remark, s->remark_length);
    if (!text)
        spell_remark(s, spelled);
    fprintf(out, ",%s\n", spelled);
}

static void write_row(void *data, const table_row *r) {
    FILE *out = data;
    if (r->number)
        fprintf(out, "%u", r->number);
    fputc(',', out);
    write_name(out, r);
    fprintf(out, ",%s", r->kind ? r->kind->wanted->name : "");
    write_values(out, r);
    write_answer(out, r);
    write_remark(out, &r->s);
}

void write_table_csv(FILE *out, const table_source *source) {
    fputs(heading, out);
    each_row(source, &(table_taker){write_row, out});
}
