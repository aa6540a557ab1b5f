#include "checklist_ask.h"

#include <ctype.h>
#include <errno.h>
#include <stdlib.h>
#include <string.h>

#include "checklist_parts.h"
#include "checklist_twins.h"
#include "options.h"
#include "reference/answer.h"

/* No right walk has more lines than a sheet can have states. */
enum { LIST_MOST = 65536, WALK_MOST = (RECORDS_MOST + 1) * LINE_MOST };

void *checked(void *memory) {
    if (!memory)
        exit(refuse("out of memory"));
    return memory;
}

bool is_asked_by(const asked_name *name, way w) {
    return (w != BY_WALK && w != BY_ROW) || name->as == AS_WRITTEN;
}

bool has_signs(const named_state *s) {
    return s->spelled.length != s->record.length;
}

bool has_digits_only(const asked_sheet *sheet, const named_state *s) {
    for (size_t i = 0; i < s->record.length; i++)
        if (!isdigit(sheet->bytes[s->record.start + i]))
            return false;
    return true;
}

uint64_t number_in_name(const asked_sheet *sheet, const named_state *s) {
    uint64_t number = 0;
    for (size_t i = 0; i < s->record.length; i++) {
        if (number > UINT64_MAX / 10 - 1)
            return UINT64_MAX;
        number = 10 * number + (uint64_t)(sheet->bytes[s->record.start + i] - '0');
    }
    return number;
}

static asked_name *add_name(asked_sheet *sheet, asked_as as, size_t state, const uint8_t *spelled, size_t length) {
    if (sheet->count == sheet->room) {
        sheet->room = 2 * sheet->room + 64;
        sheet->names = checked(realloc(sheet->names, sheet->room * sizeof *sheet->names));
    }
    asked_name *name = &sheet->names[sheet->count++];
    *name = (asked_name){.as = as, .state = state, .length = length};
    memcpy(name->spelled, spelled, length);
    name->absent = sheet_find(&sheet->parsed, sheet->bytes, spelled, length).number == 9;
    return name;
}

static void add_lower_case(asked_sheet *sheet, size_t state) {
    written_name s = sheet->states[state].spelled;
    for (size_t i = 0; i + 2 < s.length; i++) {
        if (s.bytes[i] != '%')
            continue;
        s.bytes[i + 1] = (uint8_t)tolower(s.bytes[i + 1]);
        s.bytes[i + 2] = (uint8_t)tolower(s.bytes[i + 2]);
    }
    if (memcmp(s.bytes, sheet->states[state].spelled.bytes, s.length) != 0)
        add_name(sheet, LOWER_CASE, state, s.bytes, s.length);
}

/* A name with its own percent forms decoded and every other byte as it is; returns the length. */
static size_t decode(const uint8_t *name, size_t n, uint8_t out[NAME_MOST]) {
    size_t length = 0;
    for (size_t i = 0; i < n; i++) {
        read_name form = name_read(name + i, n - i < 3 ? n - i : 3);
        bool is_form = name[i] == '%' && form.number == 0;
        out[length++] = is_form ? form.bytes[0] : name[i];
        i += is_form ? 2 : 0;
    }
    return length;
}

static void add_decoded(asked_sheet *sheet, size_t state) {
    const eas_record *record = &sheet->states[state].record;
    uint8_t name[NAME_MOST];
    size_t length = decode(sheet->bytes + record->start, record->length, name);
    written_name s = name_write(name, length);
    if (length != record->length && sheet_find(&sheet->parsed, sheet->bytes, s.bytes, s.length).number == 9)
        add_name(sheet, DECODED, state, s.bytes, s.length);
}

/* Rows are counted from 0 or from 1. */
static void add_row_numbers(asked_sheet *sheet) {
    for (size_t row = 0; row <= sheet->parsed.count; row++) {
        char number[24];
        size_t length = (size_t)snprintf(number, sizeof number, "%zu", row);
        if (sheet_find(&sheet->parsed, sheet->bytes, (uint8_t *)number, length).number == 9)
            add_name(sheet, ROW_NUMBER, 0, (uint8_t *)number, length);
    }
}

static void add_names(asked_sheet *sheet) {
    for (size_t i = 0; i < sheet->parsed.count; i++) {
        named_state *s = &sheet->states[i];
        s->record = sheet->parsed.records[i];
        s->spelled = name_write(sheet->bytes + s->record.start, s->record.length);
        s->right = right_of(&s->record);
        add_name(sheet, AS_WRITTEN, i, s->spelled.bytes, s->spelled.length);
    }
    for (size_t i = 0; i < sheet->parsed.count; i++) {
        add_lower_case(sheet, i);
        add_decoded(sheet, i);
    }
    add_row_numbers(sheet);
}

static void ask_alone(asked_sheet *sheet, asked_name *name) {
    name->answer = eas_search(sheet->bytes, sheet->n, name->spelled, name->length);
    name->mark = eas_plot(sheet->bytes, sheet->n, name->spelled, name->length);
    listing_line *line = &name->lines[BY_LINE];
    eas_text text = eas_line(sheet->bytes, sheet->n, name->spelled, name->length, (uint8_t *)line->bytes, LINE_MOST);
    line->length = text.number ? 0 : text.length;
    ask_parts(sheet, name);
}

/* Hands each name its line of a text; the last one also what is left over. */
static void share_lines(asked_name *names, size_t count, way w, const char *text, size_t length) {
    for (size_t i = 0; i < count; i++) {
        const char *end = i + 1 < count ? memchr(text, '\n', length) : NULL;
        size_t used = end ? (size_t)(end - text) + 1 : length;
        listing_line *line = &names[i].lines[w];
        line->length = used < LINE_MOST ? used : LINE_MOST;
        memcpy(line->bytes, text, line->length);
        text += used;
        length -= used;
    }
}

/* A run list from the name at `first` on, as long as one may be; returns where the next one starts. */
static size_t ask_list(asked_sheet *sheet, size_t first) {
    uint8_t *list = checked(malloc(LIST_MOST));
    size_t m = 0, end = first;
    do {
        memcpy(list + m, sheet->names[end].spelled, sheet->names[end].length);
        m += sheet->names[end].length;
        list[m++] = '\n';
        end++;
    } while (end < sheet->count && m + sheet->names[end].length + 1 <= LIST_MOST);
    size_t room = (end - first) * LINE_MOST;
    char *out = checked(malloc(room));
    eas_text text = eas_list(sheet->bytes, sheet->n, list, m, (uint8_t *)out, room);
    share_lines(sheet->names + first, end - first, BY_LIST, out, text.number ? 0 : text.length);
    free(out);
    free(list);
    return end;
}

void ask_names(asked_sheet *sheet) {
    for (size_t i = 0; i < sheet->count; i++)
        ask_alone(sheet, &sheet->names[i]);
    for (size_t i = 0; i < sheet->count;)
        i = ask_list(sheet, i);
}

asked_walk begin_walk(const asked_sheet *sheet) {
    return (asked_walk){eas_begin(sheet->bytes, sheet->n).walk, checked(malloc(WALK_MOST)), 0};
}

bool step_walk(asked_walk *w, const asked_sheet *sheet) {
    size_t room = WALK_MOST - w->length;
    eas_step step = eas_next(sheet->bytes, sheet->n, w->walk, (uint8_t *)w->text + w->length, room);
    w->walk = step.walk;
    w->length += step.length;
    return step.length > 0 && WALK_MOST - w->length >= LINE_MOST;
}

void end_walk(asked_walk *w, asked_sheet *sheet) {
    share_lines(sheet->names, sheet->parsed.count, BY_WALK, w->text, w->length);
    free(w->text);
}

void ask_all(asked_sheet *sheet) {
    asked_walk walk = begin_walk(sheet);
    ask_names(sheet);
    while (step_walk(&walk, sheet))
        ;
    end_walk(&walk, sheet);
}

static bool is_allowed(const eas_record *record, const eas_answer *answer) {
    return judge_answer((uint8_t)record->kind, record->first, record->second, answer) == NULL;
}

/* Where the search's answer is wrong, that for the state's values may be right. */
static void find_truths(asked_sheet *sheet) {
    for (size_t i = 0; i < sheet->parsed.count; i++) {
        named_state *s = &sheet->states[i];
        s->truth = sheet->names[i].answer;
        if (!is_allowed(&s->record, &s->truth))
            s->truth = eas_evaluate(s->record.kind, s->record.first, s->record.second);
        s->allowed = is_allowed(&s->record, &s->truth);
    }
}

/* Reads a file; gives why that cannot be done. */
static bool read_file(asked_sheet *sheet, char reason[REFUSAL_ROOM]) {
    FILE *file = is_standard(sheet->path) ? stdin : fopen(sheet->path, "rb");
    sheet->n = file ? fread(sheet->bytes, 1, SHEET_MOST + 1, file) : 0;
    bool is_read = file && !ferror(file);
    if (!is_read)
        snprintf(reason, REFUSAL_ROOM, "%s", strerror(errno));
    if (file && file != stdin)
        fclose(file);
    return is_read;
}

/* Reads the sheet; gives why that cannot be done, or why it is refused as a whole. */
static bool load(asked_sheet *sheet, char reason[REFUSAL_ROOM]) {
    if (!read_file(sheet, reason))
        return false;
    sheet_parse(&sheet->parsed, sheet->bytes, sheet->n);
    uint32_t number = eas_check(sheet->bytes, sheet->n), due = sheet->parsed.number;
    if (number != due)
        snprintf(reason, REFUSAL_ROOM, "the library says \"%s\", right is \"%s\"", eas_reason(number), eas_reason(due));
    else if (number)
        tell_refusal(reason, sheet->bytes, sheet->n, number);
    return !number && !due;
}

asked_sheet *ask_sheet(const char *path, char reason[REFUSAL_ROOM]) {
    asked_sheet *sheet = checked(calloc(1, sizeof *sheet));
    sheet->path = path;
    if (!load(sheet, reason)) {
        free(sheet);
        return NULL;
    }
    sheet->states = checked(calloc(sheet->parsed.count + 1, sizeof *sheet->states));
    add_names(sheet);
    ask_all(sheet);
    ask_twins(sheet);
    find_truths(sheet);
    for (way w = SHOWN_WAYS; w < WAYS; w++)
        sheet->numbers_alone[w] = wrong_for_numbers_alone(sheet, w);
    return sheet;
}
