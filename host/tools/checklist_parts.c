#include "checklist_parts.h"

#include "same.h"

bool is_part(way w) {
    return w >= SHOWN_WAYS;
}

void ask_parts(const asked_sheet *sheet, asked_name *name) {
    name->found = eas_find(sheet->bytes, sheet->n, name->spelled, name->length);
    name->remark = eas_remark(sheet->bytes, sheet->n, name->spelled, name->length);
    if (is_asked_by(name, BY_ROW))
        name->in_row = eas_record_at(sheet->bytes, sheet->n, name->state);
}

/* A twin may have lost the state. */
static bool has_state(const parsed_sheet *parsed, const asked_name *name) {
    return !name->absent && name->state < parsed->count;
}

eas_record record_due(const parsed_sheet *parsed, const asked_name *name) {
    return has_state(parsed, name) ? parsed->records[name->state] : (eas_record){.number = EAS_NAME_ABSENT};
}

eas_part remark_due(const parsed_sheet *parsed, const asked_name *name) {
    return has_state(parsed, name) ? parsed->remarks[name->state] : (eas_part){.number = EAS_NAME_ABSENT};
}

eas_record record_given(const asked_name *name, way w) {
    return w == BY_FIND ? name->found : name->in_row;
}

uint32_t part_refusal(const asked_name *name, way w) {
    return w == BY_REMARK ? name->remark.number : record_given(name, w).number;
}

bool part_is_right(const parsed_sheet *parsed, const asked_name *name, way w) {
    return w == BY_REMARK ? same_part(name->remark, remark_due(parsed, name))
                          : same_record(record_given(name, w), record_due(parsed, name));
}

size_t state_given(const asked_sheet *sheet, const asked_name *name, way w) {
    for (size_t i = 0; i < sheet->parsed.count; i++) {
        bool is_its = w == BY_REMARK ? same_part(name->remark, sheet->parsed.remarks[i])
                                     : same_record(record_given(name, w), sheet->parsed.records[i]);
        if (is_its && (name->absent || i != name->state))
            return i;
    }
    return SIZE_MAX;
}

/* Whether a wrong part is that of the row which the name numbers, from 0 or from 1, or none is given to a number. */
static bool is_taken_as_row(const asked_sheet *sheet, const asked_name *name, way w) {
    const named_state *own = &sheet->states[name->state];
    if (name->absent)
        return name->as == ROW_NUMBER;
    if (!has_digits_only(sheet, own))
        return false;
    uint64_t number = number_in_name(sheet, own);
    size_t other = state_given(sheet, name, w);
    return part_refusal(name, w) || (other != SIZE_MAX && (other == number || other + 1 == number));
}

bool wrong_for_numbers_alone(const asked_sheet *sheet, way w) {
    for (size_t i = 0; i < sheet->count; i++) {
        const asked_name *name = &sheet->names[i];
        if (is_asked_by(name, w) && !part_is_right(&sheet->parsed, name, w) && !is_taken_as_row(sheet, name, w))
            return false;
    }
    return true;
}
