#include "checklist_judge.h"

#include <errno.h>
#include <math.h>
#include <stdlib.h>
#include <string.h>

#include "checklist_parts.h"
#include "kinds.h"
#include "reference/answer.h"

#define BIT(number) (1u << (number))

const unsigned check_places[TALLIES] = {
    [SIGNS] = BIT(A_SIGN),
    [DIGITS] = BIT(A_NUMBER),
    [EDGES] = BIT(BELOW_LOWER_STRIP) | BIT(IN_LOWER_STRIP) | BIT(ABOVE_LOWER_STRIP) | BIT(BELOW_UPPER_STRIP) |
              BIT(IN_UPPER_STRIP) | BIT(ABOVE_UPPER_STRIP),
    [TRANSITION] = BIT(BEFORE_MIDDLE) | BIT(BEHIND_MIDDLE),
    [RANGE] = BIT(OUT_OF_REACH) | BIT(TOO_HOT),
};

double in_units(const eas_record *record, int64_t value) {
    return (double)value / pow(10, kind_of(record->kind)->wanted->decimals);
}

/* How large the unit is in which a mark shows a value less exactly than an answer, else 0. */
static double mark_unit(const eas_record *record, const shown *s) {
    const kind_row *kind = kind_of(record->kind);
    return s->has_z || kind->mark_decimals == kind->wanted->decimals ? 0 : pow(10, -(double)kind->mark_decimals);
}

double shown_in_units(const eas_record *record, const shown *s) {
    double unit = mark_unit(record, s);
    return unit > 0 ? unit * (double)s->value : in_units(record, s->value);
}

/* ---- what is shown */

/* A space and a number; *at moves past them. False where there is none that fits. */
static bool read_number(const char **at, int64_t *number) {
    char *end;
    if (**at != ' ')
        return false;
    errno = 0;
    *number = strtoll(*at, &end, 10);
    bool read = end > *at && errno == 0;
    *at = end;
    return read;
}

/* Behind the name, a refusal with its number, or a letter with three numbers. */
static shown read_line(const listing_line *line) {
    shown s = {.has_z = true};
    char text[LINE_MOST + 1];
    int64_t number = 0;
    memcpy(text, line->bytes, line->length);
    text[line->length] = 0;
    const char *at = strchr(text, ' ');
    if (!at || !at[1])
        return s;
    bool is_refusal = at[1] == '!';
    at += 2;
    if (is_refusal)
        s.readable = read_number(&at, &number) && number >= 0 && number <= UINT32_MAX;
    else
        s.readable = read_number(&at, &s.y) && read_number(&at, &s.z) && read_number(&at, &s.value);
    s.number = s.readable ? (uint32_t)number : 0;
    return s;
}

static shown read_mark(const eas_mark *mark) {
    const double most = 9007199254740992.0;
    shown s = {.number = mark->blank};
    s.readable = mark->blank || (fabs(mark->point.across) < most && fabs(mark->point.up) < most);
    if (s.readable && !mark->blank) {
        s.y = (int64_t)mark->point.across - 7000000;
        s.value = (int64_t)mark->point.up;
    }
    return s;
}

shown shown_by(const asked_name *name, way w) {
    const eas_answer *a = &name->answer;
    if (w == BY_SEARCH)
        return (shown){true, true, a->number, a->y, a->z, a->value};
    return w == BY_PLOT ? read_mark(&name->mark) : read_line(&name->lines[w]);
}

/* ---- whether it is right */

static bool is_mark(const eas_mark *mark, const eas_answer *truth) {
    eas_mark due = mark_of(truth);
    return mark->blank == due.blank &&
           (mark->blank || (mark->point.across == due.point.across && mark->point.up == due.point.up));
}

static bool is_line(const asked_name *name, const listing_line *line, const eas_answer *truth) {
    listing_line due = line_of(name->spelled, name->length, truth);
    return line->length == due.length && !memcmp(line->bytes, due.bytes, due.length);
}

/* How far what is shown is from a value, beyond what a mark's unit leaves, which is rounded down. */
static double off_by(double value, double unit, double from) {
    return fmax(fabs(value + unit / 2 - from) - unit / 2, 0);
}

/* Where the library's answer is wrong: a mark that shows less of it may show what is right. */
static bool shows_right(const eas_mark *mark, const named_state *s) {
    shown m = read_mark(mark);
    double unit = mark_unit(&s->record, &m), value = shown_in_units(&s->record, &m);
    return unit > 0 && m.readable && !m.number && !s->right.number && off_by(value, unit, s->right.value) == 0;
}

static bool is_right(const asked_name *name, const named_state *s, way w) {
    const eas_answer nobody = {.number = 9}, *truth = name->absent ? &nobody : &s->truth;
    if (!name->absent && w == BY_SEARCH)
        return !judge_answer((uint8_t)s->record.kind, s->record.first, s->record.second, &name->answer);
    if (!name->absent && !s->allowed)
        return w == BY_PLOT && shows_right(&name->mark, s);
    if (w == BY_SEARCH)
        return !answers_differ(truth, &name->answer);
    return w == BY_PLOT ? is_mark(&name->mark, truth) : is_line(name, &name->lines[w], truth);
}

/* ---- what is wrong */

/* A refusal is another state's only where the name is the number of that state's row. */
size_t state_shown(const asked_sheet *sheet, const asked_name *name, const shown *s) {
    const named_state *own = &sheet->states[name->state];
    uint64_t row = !name->absent && has_digits_only(sheet, own) ? number_in_name(sheet, own) : UINT64_MAX;
    for (size_t i = 0; s->readable && i < sheet->parsed.count; i++) {
        const eas_answer *a = &sheet->states[i].truth;
        bool is_other = sheet->states[i].allowed && (name->absent || i != name->state);
        bool is_row = i == row || i + 1 == row;
        int64_t value = s->has_z ? a->value : (int64_t)mark_of(a).point.up;
        bool is_value = !s->number && s->y == a->y && s->value == value && (!s->has_z || s->z == a->z);
        if (is_other && s->number == a->number && (is_value || (s->number && is_row)))
            return i;
    }
    return SIZE_MAX;
}

/* How far what is shown is from a wrong value, in parts of it; HUGE_VAL where it is not that one. */
static double distance_to(double value, double wrong, double unit, const right_state *right) {
    double off = off_by(value, unit, wrong);
    bool is_it = right->fitted && wrong != 0 && off <= 1e-5 * fabs(wrong) && !same_value(wrong, right->value);
    return is_it ? off / fabs(wrong) : HUGE_VAL;
}

/* The cause whose wrong value is the nearest. */
cause cause_by_value(double value, double unit, const right_state *right) {
    double least = HUGE_VAL;
    cause nearest = OTHERWISE;
    for (int i = 0; i < RANGES + LOST_SIGNS + 1; i++) {
        double wrong = i < RANGES                ? right->one_range[i]
                       : i < RANGES + LOST_SIGNS ? right->sign_lost[i - RANGES]
                                                 : right->end_densities;
        double distance = distance_to(value, wrong, unit, right);
        if (distance >= least)
            continue;
        least = distance;
        nearest = i < RANGES                ? right->joined ? NOT_JOINED : NEIGHBOURS
                  : i < RANGES + LOST_SIGNS ? SIGN_LOST
                                            : END_DENSITIES;
    }
    return nearest;
}

/* What is right in the sheet itself may be another in a twin. */
static cause cause_by_twin(const asked_name *name, way w) {
    return name->differs[WITHOUT_REMARKS][w] ? BY_REMARKS
           : name->differs[CONVERTED][w]     ? BY_CONVERSION
           : name->differs[GROWN][w]         ? BY_ADDITION
           : name->differs[REVERSED][w]      ? BY_ORDER
                                             : RIGHT;
}

static cause cause_of_part(const asked_sheet *sheet, const asked_name *name, way w) {
    if (!is_asked_by(name, w) || part_is_right(&sheet->parsed, name, w))
        return cause_by_twin(name, w);
    if (name->absent)
        return FOUND_ABSENT;
    if (name->lost_by_remark[w])
        return BY_REMARKS;
    if (part_refusal(name, w))
        return NOT_FOUND;
    return state_given(sheet, name, w) != SIZE_MAX ? ANOTHERS : OTHERWISE;
}

static cause cause_of(const asked_sheet *sheet, const asked_name *name, way w) {
    const named_state *state = &sheet->states[name->state];
    const right_state *right = &state->right;
    if (is_part(w))
        return cause_of_part(sheet, name, w);
    if (name->differs[WITHOUT_REMARKS][w])
        return BY_REMARKS;
    if (!is_asked_by(name, w) || is_right(name, state, w))
        return cause_by_twin(name, w);
    if (name->absent)
        return FOUND_ABSENT;
    shown s = shown_by(name, w);
    if (!s.readable || (s.number >= 7 && s.number <= 9))
        return NOT_FOUND;
    if (state_shown(sheet, name, &s) != SIZE_MAX)
        return ANOTHERS;
    if (s.number || right->number)
        return s.number ? OTHERWISE : UNDUE_VALUE;
    return cause_by_value(shown_in_units(&state->record, &s), mark_unit(&state->record, &s), right);
}

/* ---- which check it is for */

unsigned checks_of(const asked_sheet *sheet, const named_state *s) {
    const right_state *right = &s->right;
    return (has_signs(s) ? BIT(SIGNS) : 0) | (has_digits_only(sheet, s) ? BIT(DIGITS) : 0) |
           (right->edge ? BIT(EDGES) : 0) | (!right->number && right->blended ? BIT(TRANSITION) : 0) |
           (right->number ? BIT(RANGE) : 0);
}

/* A name that is also the number of its row, in the sheet and in its reversed copy, cannot tell. */
static unsigned places_by_name(const asked_sheet *sheet, const named_state *s) {
    if (!has_digits_only(sheet, s))
        return has_signs(s) ? BIT(A_SIGN) : 0;
    uint64_t row = (uint64_t)(s - sheet->states), number = number_in_name(sheet, s);
    uint64_t reversed = sheet->parsed.count - 1 - row;
    bool tells = number != row && number != row + 1, tells_reversed = number != reversed && number != reversed + 1;
    return tells || tells_reversed ? BIT(A_NUMBER) : 0;
}

/* A state where a wrong curve has the right value cannot tell: beside a strip that of the neighbouring range, in it
 * that of either range. */
static unsigned place_at_edge(const right_state *right) {
    int wrong = 0;
    for (int i = 0; i < RANGES; i++)
        wrong += !same_value(right->one_range[i], right->value);
    if (!right->fitted || !right->edge || wrong < (right->joined ? RANGES : 1))
        return 0;
    return BIT((right->edge == LOWER_DENSITY_EDGE ? BELOW_LOWER_STRIP : BELOW_UPPER_STRIP) + (int)right->side);
}

static unsigned place_in_transition(const right_state *right) {
    if (!right->blended || right->joined || right->weight < 0.01 || right->weight > 0.99 ||
        same_value(right->sign_lost[0], right->value))
        return 0;
    return BIT(right->weight < 0.5 ? BEFORE_MIDDLE : BEHIND_MIDDLE);
}

static unsigned places_by_value(const right_state *right) {
    if (right->number)
        return right->number == 12 || right->number == 17 ? BIT(OUT_OF_REACH) : right->number == 13 ? BIT(TOO_HOT) : 0;
    return place_at_edge(right) | place_in_transition(right);
}

/* Whether a state's name is the number of a row that is there only where states are added. */
static bool is_new_row(const asked_sheet *sheet, const named_state *s) {
    uint64_t number = has_digits_only(sheet, s) ? number_in_name(sheet, s) : 0;
    return number >= sheet->parsed.count && number <= sheet->parsed.count + NEW_STATES;
}

/* A fault that a check names goes to that check alone, any other to all that look at the state. */
unsigned charged_by_cause(unsigned looking, cause c) {
    unsigned by_name = looking & (BIT(SIGNS) | BIT(DIGITS)), by_value = looking & ~by_name;
    if (c == NOT_FOUND || c == ANOTHERS)
        return by_name ? by_name : BIT(OTHERS);
    if ((c == NEIGHBOURS || c == NOT_JOINED || c == END_DENSITIES) && by_value & BIT(EDGES))
        return BIT(EDGES);
    if (c == SIGN_LOST && by_value & BIT(TRANSITION))
        return BIT(TRANSITION);
    return by_value ? by_value : BIT(OTHERS);
}

/* Of a part of the sheet a wrong row goes to the numbers, and so does what is wrong for numbers alone; a spelled name
 * that is not found goes to the signs. */
static unsigned charged_by_part(const asked_sheet *sheet, unsigned looking, way w, cause c) {
    if (w == BY_ROW || sheet->numbers_alone[w])
        return BIT(DIGITS);
    return BIT(c == NOT_FOUND && looking & BIT(SIGNS) ? SIGNS : REMARKS);
}

/* What a copy of the sheet shows otherwise goes to the line of that copy; a number that is taken as a row, to the
 * numbers. */
static unsigned charged_checks(const asked_sheet *sheet, const asked_name *name, unsigned looking, way w, cause c) {
    if (c == BY_REMARKS || c == BY_CONVERSION)
        return BIT(c == BY_REMARKS ? REMARKS : CONVERSION);
    if (name->absent)
        return BIT(name->as == ROW_NUMBER ? DIGITS : SIGNS);
    if (c == BY_ADDITION)
        return BIT(is_new_row(sheet, &sheet->states[name->state]) ? DIGITS : ADDITIONS);
    if (c == BY_ORDER)
        return BIT((looking & BIT(DIGITS)) ? DIGITS : OTHERS);
    return is_part(w) ? charged_by_part(sheet, looking, w, c) : charged_by_cause(looking, c);
}

/* The checks that a name is charged to, with the causes by each way. */
static unsigned judge_name(const asked_sheet *sheet, const asked_name *name, cause causes[WAYS]) {
    unsigned charged = 0, looking = name->absent ? 0 : checks_of(sheet, &sheet->states[name->state]);
    for (way w = 0; w < WAYS; w++) {
        causes[w] = cause_of(sheet, name, w);
        charged |= causes[w] == RIGHT ? 0 : charged_checks(sheet, name, looking, w, causes[w]);
    }
    return charged;
}

static void look_at(const asked_sheet *sheet, const named_state *s, tally tallies[TALLIES]) {
    unsigned places = places_by_name(sheet, s) | places_by_value(&s->right);
    for (int c = 0; c < TALLIES; c++) {
        tally *t = &tallies[c];
        bool tells = c == OTHERS ? !checks_of(sheet, s) : places & check_places[c];
        t->places |= places & check_places[c];
        if (tells && t->telling++ == 0)
            t->example = s;
    }
}

static void charge(const fault *f, unsigned charged, tally tallies[TALLIES]) {
    for (int c = 0; c < TALLIES; c++)
        if (charged & BIT(c) && tallies[c].faulty++ == 0)
            tallies[c].first = *f;
}

static bool is_misconverted(const asked_sheet *sheet) {
    const conversion_result *result = &sheet->conversion;
    return result->number != result->due || !result->returns;
}

void judge_sheet(const asked_sheet *sheet, tally tallies[TALLIES]) {
    if (is_misconverted(sheet) && !tallies[CONVERSION].misconverted)
        tallies[CONVERSION].misconverted = sheet;
    if (sheet->addition.wrong && !tallies[ADDITIONS].misgrown)
        tallies[ADDITIONS].misgrown = sheet;
    for (size_t i = 0; i < sheet->parsed.count; i++)
        look_at(sheet, &sheet->states[i], tallies);
    for (size_t i = 0; i < sheet->count; i++) {
        fault f = {.sheet = sheet, .name = &sheet->names[i]};
        unsigned charged = judge_name(sheet, f.name, f.causes);
        charge(&f, charged, tallies);
        if (f.name->as == DECODED && !charged && tallies[SIGNS].encoded++ == 0) {
            tallies[SIGNS].encoded_in = sheet;
            tallies[SIGNS].encoded_name = f.name;
        }
    }
}
