#include "convert.h"

#include "common.h"
#include "kinds.h"
#include "options.h"

/* How many of many states are named, and bytes that are enough for their names with what is between and behind them. */
enum { NAMED_MOST = 5, NAMES_ROOM = NAMED_MOST * (SPELLED_MOST + 4) + 32 };

/* Tells the first state that has a remark, how many have one, and what to do. */
static int refuse_remarks(const char *input, const uint8_t *sheet) {
    state first = {.length = 0};
    unsigned record = 0, count = 0;
    size_t at = HEAD;
    for (unsigned i = 1; i <= record_count(sheet); i++) {
        state s = next_state(sheet, &at);
        if (s.remark_length == 0 || count++ > 0)
            continue;
        record = i;
        first = s;
    }
    refuse("%s: record %u: refusal %u: %s: %u %s one, first '%s'", input, record, EAS_REMARK_NOT_EMPTY,
           eas_reason(EAS_REMARK_NOT_EMPTY), count, count == 1 ? "state has" : "states have", first.spelled);
    return refuse("%s: note: unpack it, clear the remarks and pack the text: that makes a sheet of version 1", input);
}

/* Tells why an accepted sheet is not converted. */
static int refuse_conversion(const char *input, const uint8_t *sheet, size_t n, uint32_t number) {
    unsigned count = record_count(sheet);
    switch (number) {
    case EAS_VERSION_UNKNOWN:
        return refuse("%s: refusal %u: the sheet is of version %u already, and nothing needs to be done", input, number,
                      sheet_version(sheet));
    case EAS_SHEET_TOO_LONG:
        return refuse(
            "%s: refusal %u: in version 2 the sheet would have %zu bytes, one more for each of its %u states, "
            "and %d is the most",
            input, number, n + count, count, SHEET_MOST);
    case EAS_REMARK_NOT_EMPTY:
        return refuse_remarks(input, sheet);
    default:
        return refuse("%s: refusal %u: %s", input, number, eas_reason(number));
    }
}

/* Writes the spelled names of a sheet's states of a kind, the first of many; returns how many states are of it. */
static unsigned name_states(char out[NAMES_ROOM], const uint8_t *sheet, uint8_t kind) {
    unsigned count = 0;
    size_t at = HEAD, length = 0;
    for (unsigned left = record_count(sheet); left > 0; left--) {
        state s = next_state(sheet, &at);
        if (s.kind != kind || count++ >= NAMED_MOST)
            continue;
        length += (size_t)snprintf(out + length, NAMES_ROOM - length, "%s'%s'", count > 1 ? ", " : "", s.spelled);
    }
    if (count > NAMED_MOST)
        snprintf(out + length, NAMES_ROOM - length, " and %u more", count - NAMED_MOST);
    return count;
}

/* Tells which copies refuse a sheet of version 1, because of a kind that came later, and the states that are of it. */
static void tell_later_kinds(const char *input, const uint8_t *sheet) {
    char names[NAMES_ROOM];
    for (int i = 0; i < KIND_COUNT; i++) {
        const kind_row *kind = &kinds[i];
        unsigned count = kind->since ? name_states(names, sheet, kind->kind) : 0;
        if (count > 0)
            refuse(
                "%s: note: a copy before %s refuses the sheet with %u, because it does not know kind %u (%s wanted), "
                "which %u %s: %s",
                input, kind->since, EAS_KIND_UNKNOWN, kind->kind, kind->wanted->name, count,
                count == 1 ? "state has" : "states have", names);
    }
}

int convert(const char *input, const char *output, conversion *by) {
    static uint8_t sheet[SHEET_MOST + 1], result[SHEET_MOST];
    size_t n;
    if (load_to_change(input, output, sheet, &n))
        return REFUSED;
    eas_text text = by(sheet, n, result, sizeof result);
    if (text.number)
        return refuse_conversion(input_name(input), sheet, n, text.number);
    if (write_output(output, result, text.length))
        return REFUSED;
    if (sheet_version(result) == 1)
        tell_later_kinds(input_name(input), result);
    return DONE;
}
