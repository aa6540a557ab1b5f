#include "checklist_shown.h"

#include <ctype.h>
#include <errno.h>
#include <stdlib.h>
#include <string.h>

#include "checklist_judge.h"
#include "checklist_report.h"
#include "checklist_value.h"
#include "checklist_words.h"

/* A check tells at most this many lines. */
enum { TOLD_MOST = 20 };

/* A line of the file with its judgement; the state is SIZE_MAX where no state has the name. */
typedef struct {
    const text_row *row;
    const char *unreadable;
    shown_value shown;
    size_t state, other; /* other: whose value is shown, else SIZE_MAX */
    cause c;
    unsigned looking, charged; /* checks, a bit each */
} judged_row;

typedef struct {
    const asked_sheet *sheet;
    judged_row *rows;
    size_t count;
} judgement;

/* ---- whose line it is */

static size_t state_named(const asked_sheet *sheet, const void *name, size_t n) {
    for (size_t i = 0; i < sheet->parsed.count; i++) {
        const eas_record *record = &sheet->states[i].record;
        if (record->length == n && !memcmp(sheet->bytes + record->start, name, n))
            return i;
    }
    return SIZE_MAX;
}

/* The name is taken as it is, else as a spelling. */
static size_t state_of(const asked_sheet *sheet, field name) {
    size_t state = state_named(sheet, name.bytes, name.length);
    read_name read = name_read((const uint8_t *)name.bytes, name.length);
    return state == SIZE_MAX && !read.number ? state_named(sheet, read.bytes, read.length) : state;
}

static bool is_number(field name) {
    for (size_t i = 0; i < name.length; i++)
        if (!isdigit((unsigned char)name.bytes[i]))
            return false;
    return true;
}

/* ---- what is wrong */

/* Whether the value is that of a state other than the line's own. */
static bool is_anothers(const asked_sheet *sheet, const judged_row *j, uint64_t i) {
    return i < sheet->parsed.count && i != j->state && !sheet->states[i].right.number &&
           is_shown_right(&j->shown, &sheet->states[i]);
}

/* The state whose value this is, in the row that the name numbers from 0 or from 1; SIZE_MAX where there is none. */
static size_t row_showing(const asked_sheet *sheet, const judged_row *j) {
    field name = j->row->fields[NAME_FIELD];
    uint64_t number = is_number(name) ? strtoull(name.bytes, NULL, 10) : UINT64_MAX;
    return is_anothers(sheet, j, number) ? number : is_anothers(sheet, j, number - 1) ? number - 1 : SIZE_MAX;
}

/* The same in any row. */
static size_t state_showing(const asked_sheet *sheet, const judged_row *j) {
    for (size_t i = 0; i < sheet->parsed.count; i++)
        if (is_anothers(sheet, j, i))
            return i;
    return SIZE_MAX;
}

/* A value may be rounded or cut. */
static cause cause_of_value(const judged_row *j, const named_state *s) {
    if (!is_in_unit_of(&j->shown, s))
        return OTHERWISE;
    double value = (double)(j->shown.value - j->shown.digit / 2), unit = (double)(1.5L * j->shown.digit);
    return cause_by_value(value, unit, &s->right);
}

static void find_cause(const asked_sheet *sheet, judged_row *j) {
    const named_state *s = j->state == SIZE_MAX ? NULL : &sheet->states[j->state];
    if (s ? is_shown_right(&j->shown, s) : j->shown.blank)
        return;
    if (s && j->shown.blank) {
        j->c = NOT_FOUND;
        return;
    }
    j->other = row_showing(sheet, j);
    j->c = !s ? FOUND_ABSENT : j->other != SIZE_MAX ? ANOTHERS : s->right.number ? UNDUE_VALUE : cause_of_value(j, s);
    if (j->c != OTHERWISE)
        return;
    j->other = state_showing(sheet, j);
    j->c = j->other != SIZE_MAX ? ANOTHERS : OTHERWISE;
}

static judged_row judge_row(const asked_sheet *sheet, const text_row *row) {
    judged_row j = {.row = row, .c = RIGHT, .state = state_of(sheet, row->fields[NAME_FIELD]), .other = SIZE_MAX};
    const named_state *s = j.state == SIZE_MAX ? NULL : &sheet->states[j.state];
    j.unreadable = read_shown(row, &j.shown);
    if (j.unreadable)
        return j;
    unsigned by_name = 1u << (is_number(row->fields[NAME_FIELD]) ? DIGITS : SIGNS),
             looking = s ? checks_of(sheet, s) : by_name;
    j.looking = looking ? looking : 1u << OTHERS;
    find_cause(sheet, &j);
    if (j.c != RIGHT)
        j.charged = s ? charged_by_cause(looking, j.c) : by_name;
    return j;
}

/* ---- in words */

static void print_field(field f) {
    printf("%.*s", (int)f.length, f.bytes);
}

static void print_row_name(const judgement *of, const judged_row *j) {
    printf("%*sline %u, ", INDENT, "", j->row->line);
    if (j->state != SIZE_MAX)
        print_state_name(&of->sheet->states[j->state]);
    else
        print_field(j->row->fields[NAME_FIELD]);
    printf(": ");
}

static void print_wrong(const judgement *of, const judged_row *j) {
    print_row_name(of, j);
    if (j->shown.blank) {
        printf("nothing");
    } else {
        print_field(j->row->fields[VALUE_FIELD]);
        printf(" ");
        print_field(j->row->fields[UNIT_FIELD]);
    }
    printf(" (%s", cause_words[j->c]);
    print_other(of->sheet, j->other);
    printf("); right is ");
    print_due(j->state == SIZE_MAX ? NULL : &of->sheet->states[j->state]);
    printf("\n");
}

/* Prints the lines that were charged to a check; gives how many there are. */
static unsigned print_charged(const judgement *of, int check) {
    unsigned wrong = 0;
    for (size_t i = 0; i < of->count; i++)
        if (of->rows[i].charged >> check & 1 && wrong++ < TOLD_MOST)
            print_wrong(of, &of->rows[i]);
    if (wrong > TOLD_MOST)
        printf("%*sand %u more\n", INDENT, "", wrong - TOLD_MOST);
    return wrong;
}

static void print_line(const judgement *of, int check) {
    unsigned seen = 0, wrong = 0;
    for (size_t i = 0; i < of->count; i++) {
        seen += of->rows[i].looking >> check & 1;
        wrong += of->rows[i].charged >> check & 1;
    }
    printf("%*s%-34s ", LEFT, "", line_titles[check]);
    if (wrong)
        printf("FAILED for %u %s\n", wrong, wrong == 1 ? "line" : "lines");
    else if (seen)
        printf("PASSED for %u %s\n", seen, seen == 1 ? "line" : "lines");
    else
        printf("not in this file\n");
    print_charged(of, check);
}

/* Tells the lines that cannot be read; gives how many there are. */
static unsigned print_unreadable(const judgement *of) {
    unsigned unreadable = 0;
    for (size_t i = 0; i < of->count; i++) {
        const judged_row *j = &of->rows[i];
        if (!j->unreadable || unreadable++ >= TOLD_MOST)
            continue;
        print_row_name(of, j);
        printf("cannot be read: %s: ", j->unreadable);
        print_field(j->row->fields[VALUE_FIELD]);
        printf(" ");
        print_field(j->row->fields[UNIT_FIELD]);
        printf("\n");
    }
    return unreadable;
}

/* States of the sheet that no line is of: they were not judged. */
static void print_unshown(const judgement *of) {
    size_t unshown = 0, first = 0;
    for (size_t state = of->sheet->parsed.count; state-- > 0;) {
        bool is_there = false;
        for (size_t i = 0; i < of->count && !is_there; i++)
            is_there = of->rows[i].state == state;
        first = is_there ? first : state;
        unshown += !is_there;
    }
    if (unshown == 0)
        return;
    printf("%*s%zu %s of the sheet %s not in the file, first ", LEFT, "", unshown, unshown == 1 ? "state" : "states",
           unshown == 1 ? "is" : "are");
    print_state_name(&of->sheet->states[first]);
    printf("\n");
}

static bool print_judgement(const judgement *of) {
    unsigned wrong = 0;
    for (int check = 0; check < CHECKS; check++)
        print_line(of, check);
    print_line(of, OTHERS);
    unsigned unreadable = print_unreadable(of);
    for (size_t i = 0; i < of->count; i++)
        wrong += of->rows[i].charged != 0;
    print_unshown(of);
    printf("%*sOf %zu lines %zu are right, %u are wrong, %u cannot be read.\n\n", LEFT, "", of->count,
           of->count - wrong - unreadable, wrong, unreadable);
    return wrong == 0 && unreadable == 0;
}

/* ---- files */

/* The whole of a file with a zero byte behind it; null, with the reason, where it cannot be read. */
static char *read_text(const char *path, size_t *n, const char **reason) {
    FILE *file = is_standard(path) ? stdin : fopen(path, "rb");
    char *text = NULL;
    size_t room = 0;
    *n = 0;
    for (size_t got = 1; file && got > 0; *n += got) {
        room = *n + 1 < room ? room : 2 * room + 65536;
        text = checked(realloc(text, room));
        got = fread(text + *n, 1, room - *n - 1, file);
        text[*n + got] = 0;
    }
    bool is_read = file && !ferror(file);
    *reason = is_read ? NULL : strerror(errno);
    if (file && file != stdin)
        fclose(file);
    return is_read ? text : NULL;
}

bool judge_file(const char *path, const char *sheet_path) {
    char reason[REFUSAL_ROOM];
    const char *unread;
    size_t n;
    printf("Shown in %s for sheet %s\n", input_name(path), input_name(sheet_path));
    const asked_sheet *sheet = ask_sheet(sheet_path, reason);
    if (!sheet)
        print_unread("sheet", sheet_path, reason);
    char *text = read_text(path, &n, &unread);
    if (!text)
        print_unread("file", path, unread);
    if (!sheet || !text)
        return false;
    text_rows rows = split_rows(text, n);
    judgement of = {sheet, checked(calloc(rows.count + 1, sizeof *of.rows)), rows.count};
    for (size_t i = 0; i < rows.count; i++)
        of.rows[i] = judge_row(sheet, &rows.rows[i]);
    return print_judgement(&of);
}
