#include "checklist_value.h"

#include <math.h>
#include <stdlib.h>
#include <string.h>

#include "kinds.h"

/* The units that are read, as powers of ten of the SI unit. */
static const struct {
    const char *unit, *of;
    int power;
} units[] = {
    {"K", "K", 0},
    {"Pa", "Pa", 0},
    {"mPa", "Pa", -3},
    {"hPa", "Pa", 2},
    {"mbar", "Pa", 2},
    {"kPa", "Pa", 3},
    {"bar", "Pa", 5},
    {"MPa", "Pa", 6},
    {"GPa", "Pa", 9},
    {"J/(kg K)", "J/(kg K)", 0},
    {"J/kg/K", "J/(kg K)", 0},
    {"kJ/(kg K)", "J/(kg K)", 3},
    {"kJ/kg/K", "J/(kg K)", 3},
};

enum { UNITS = sizeof units / sizeof *units, NUMBER_MOST = 64 };

static bool is_unit(field f, const char *unit) {
    return f.length == strlen(unit) && !memcmp(f.bytes, unit, f.length);
}

/* The SI unit of a unit and its power of ten; none is no error. */
static bool find_unit(field unit, const char **of, int *power) {
    *of = NULL;
    *power = 0;
    for (int i = 0; i < UNITS; i++)
        if (is_unit(unit, units[i].unit)) {
            *of = units[i].of;
            *power = units[i].power;
        }
    return *of || unit.length == 0;
}

static field trimmed(field f) {
    for (; f.length > 0 && f.bytes[0] == ' '; f.length--)
        f.bytes++;
    while (f.length > 0 && f.bytes[f.length - 1] == ' ')
        f.length--;
    return f;
}

static bool is_blank(field f) {
    return f.length == 0 || field_is(f, "blank") || field_is(f, "nan") || field_is(f, "-");
}

/* The power of ten of a number's last digit: 1.50 has -2, 1.5e3 has 2. */
static int last_digit(const char *number) {
    const char *point = strchr(number, '.'), *exponent = strpbrk(number, "eE");
    size_t end = exponent ? (size_t)(exponent - number) : strlen(number);
    int decimals = point ? (int)(end - (size_t)(point - number)) - 1 : 0;
    return (exponent ? (int)strtol(exponent + 1, NULL, 10) : 0) - decimals;
}

const char *read_shown(const text_row *row, shown_value *v) {
    field value = trimmed(row->fields[VALUE_FIELD]), unit = trimmed(row->fields[UNIT_FIELD]);
    char text[NUMBER_MOST + 1], *end;
    int power;
    *v = (shown_value){.blank = is_blank(value)};
    if (v->blank)
        return NULL;
    if (value.length > NUMBER_MOST || strspn(value.bytes, "+-.0123456789eE") < value.length)
        return "the value is no number";
    memcpy(text, value.bytes, value.length);
    text[value.length] = 0;
    long double number = strtold(text, &end);
    if (end == text || *end || !isfinite(number))
        return "the value is no number";
    if (!find_unit(unit, &v->unit, &power))
        return "the unit is not known";
    v->value = number * powl(10, power);
    v->digit = powl(10, last_digit(text) + power);
    return NULL;
}

bool is_in_unit_of(const shown_value *v, const named_state *s) {
    return !v->unit || !strcmp(v->unit, kind_of(s->record.kind)->wanted->unit);
}

/* Half a digit for what is rounded, a whole one for what is cut; digits beyond those of an answer say nothing more. */
bool is_shown_right(const shown_value *v, const named_state *s) {
    uint32_t number = s->right.number;
    if (v->blank || number)
        return v->blank && number;
    if (!is_in_unit_of(v, s))
        return false;
    const unsigned decimals = kind_of(s->record.kind)->wanted->decimals;
    long double finest = powl(10, -(long double)decimals), slack = finest / 1000;
    long double digit = fmaxl(v->digit, finest),
                due = s->allowed ? (long double)s->truth.value * finest : s->right.value;
    bool is_cut = v->digit > finest && v->value <= due + slack && due < v->value + digit;
    return is_cut || fabsl(v->value - due) <= digit / 2 + slack ||
           (!s->allowed && same_value((double)v->value, (double)due));
}
