#include "add.h"

#include "kinds.h"
#include "name.h"

/* Of the typed state alone, then of its name in an accepted sheet. */
static uint32_t refusal(const parsed_sheet *parsed, const uint8_t *sheet, const typed_state *typed) {
    uint32_t found = sheet_find(parsed, sheet, typed->spelled, typed->m).number;
    if (found == 7 || found == 8)
        return found;
    if (!kind_known(typed->kind))
        return 6;
    return found == 0 ? 16 : 0;
}

static void write_record(made_sheet *out, const typed_state *typed) {
    read_name name = name_read(typed->spelled, typed->m);
    write_number(out, name.length, 1);
    write_bytes(out, name.bytes, name.length);
    write_number(out, typed->kind, 1);
    write_number(out, typed->first, 8);
    write_number(out, typed->second, 8);
    write_number(out, 0, 1);
}

void sheet_add(made_sheet *out, const parsed_sheet *parsed, const uint8_t *sheet, size_t n, const typed_state *typed) {
    out->length = 0;
    out->number = sheet_refusal(parsed, 2);
    if (out->number == 0)
        out->number = refusal(parsed, sheet, typed);
    if (out->number != 0)
        return;
    write_bytes(out, sheet, 5);
    write_number(out, parsed->count + 1, 2);
    write_bytes(out, sheet + 7, n - 7);
    write_record(out, typed);
    refuse_too_long(out, 19);
}
