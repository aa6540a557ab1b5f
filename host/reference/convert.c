#include "convert.h"

/* An accepted sheet without its remarks. */
static void write_sheet(made_sheet *out, const parsed_sheet *parsed, const uint8_t *sheet, uint64_t version) {
    write_bytes(out, "EAS", 3);
    write_number(out, version, 2);
    write_number(out, parsed->count, 2);
    for (size_t i = 0; i < parsed->count; i++) {
        const eas_record *record = &parsed->records[i];
        write_number(out, record->length, 1);
        write_bytes(out, sheet + record->start, record->length);
        write_number(out, record->kind, 1);
        write_number(out, record->first, 8);
        write_number(out, record->second, 8);
        if (version == 2)
            write_number(out, 0, 1);
    }
}

/* The sheet's own refusals, then 18. */
static uint32_t refusal(const parsed_sheet *parsed, uint64_t from) {
    uint32_t number = sheet_refusal(parsed, from);
    for (size_t i = 0; number == 0 && i < parsed->count; i++)
        if (parsed->remarks[i].length > 0)
            number = 18;
    return number;
}

void sheet_convert(made_sheet *out, const parsed_sheet *parsed, const uint8_t *sheet, uint64_t from) {
    out->length = 0;
    out->number = refusal(parsed, from);
    if (out->number == 0)
        write_sheet(out, parsed, sheet, from == 1 ? 2 : 1);
    refuse_too_long(out, 1);
}
