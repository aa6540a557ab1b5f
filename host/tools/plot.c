/* plot: a sheet's states over log10 of the density ratio, with a list of all of them. */
#include "plot.h"

#include <math.h>
#include <stdio.h>
#include <stdlib.h>
#include <string.h>

#include "common.h"
#include "limits.h"
#include "options.h"
#include "utf8.h"

const colour black = {0.1, 0.1, 0.1}, dark = {0.2, 0.2, 0.2}, grey = {0.45, 0.45, 0.45}, light = {0.9, 0.9, 0.9};

double across_of(const item *it) {
    return (it->mark.point.across + LEAST_Y) / 1e6;
}

double up_of(const item *it, const kind_row *kind) {
    return (double)it->value / pow(10, kind->wanted->decimals);
}

/* A pressure with six digits, cut at the answer's last one, or all digits of its whole pascals; else two decimals. */
static unsigned shown_decimals(const item *it, const kind_row *kind) {
    unsigned decimals = 2;
    if (kind->letter != 'P')
        return decimals;
    decimals = kind->wanted->decimals;
    for (int64_t value = it->value; value >= 1000000 && decimals > 0; value /= 10)
        decimals--;
    return decimals;
}

/* Digits of a pressure that are not shown are cut, as those of its mark are; others are rounded. */
const char *value_text(const item *it, const kind_row *kind) {
    static char text[32];
    unsigned decimals = shown_decimals(it, kind);
    double value = up_of(it, kind), unit = pow(10, -(double)decimals);
    if (kind->letter == 'P' && decimals < kind->wanted->decimals)
        value = floor(value / unit) * unit;
    snprintf(text, sizeof text, "%.*f", (int)decimals, value);
    return text;
}

bool is_point_of(const item *it, const kind_row *kind) {
    return !it->mark.blank && it->s.kind == kind->kind;
}

/* The name as text; spelled where it is none, or where it would not be seen whole. */
static void show_name(item *it) {
    const uint8_t *name = it->s.name;
    size_t n = it->s.length;
    bool text = is_text(name, n) && name[0] != ' ' && name[n - 1] != ' ';
    snprintf(it->name, sizeof it->name, text ? "%.*s" : "%.*s (spelled)", (int)(text ? n : it->s.spelled_length),
             text ? (const char *)name : it->s.spelled);
}

/* The remark as text, or spelled where it is none. */
static void show_remark(item *it) {
    char spelled[REMARK_SPELLED_MOST + 1];
    size_t n = it->s.remark_length;
    spell_remark(&it->s, spelled);
    if (is_text(it->s.remark, n))
        snprintf(it->remark, sizeof it->remark, "%.*s", (int)n, (const char *)it->s.remark);
    else
        snprintf(it->remark, sizeof it->remark, "%s (spelled)", spelled);
}

/* What the library says of a state. */
static void ask(item *it, const uint8_t *sheet, size_t n) {
    int64_t middle, half;
    eas_answer a = search_state(sheet, n, &it->s);
    it->mark = eas_plot(sheet, n, (const uint8_t *)it->s.spelled, it->s.spelled_length);
    it->value = a.value;
    it->z = MILLIONTHS((double)a.z);
    it->fitted = a.letter == 'S' || a.carries & EAS_CARRIES_LOW;
    it->joined = a.letter == 'S' ? inside_strip(a.y, &middle, &half) : a.carries & EAS_CARRIES_HIGH;
}

static bool is_wanted(const choice *wanted, const item *it) {
    double density = (double)it->s.second / pow(10, kind_of(it->s.kind)->second->decimals);
    return density >= wanted->from && density <= wanted->to && (!wanted->letters || strstr(it->name, wanted->letters));
}

/* The states that are wanted, with their numbers in the sheet. */
static void gather(chart *c, const uint8_t *sheet, size_t n) {
    size_t at = HEAD;
    c->of = record_count(sheet);
    for (unsigned i = 0; i < c->of; i++) {
        item *it = &c->items[c->count];
        it->s = next_state(sheet, &at);
        it->number = i + 1;
        show_name(it);
        show_remark(it);
        if (!is_wanted(&c->wanted, it))
            continue;
        ask(it, sheet, n);
        c->count++;
        c->blanks += it->mark.blank != 0;
        c->remarks += it->s.remark_length > 0;
    }
}

/* The file's name without its folders. */
static const char *base_name(const char *path) {
    const char *slash = strrchr(path, '/');
    return slash ? slash + 1 : path;
}

static const char *title, *match, *from, *to, *no_list;

static const tool_option options[] = {
    {'t', "title", "TEXT", "the title instead of the file's name", &title},
    {'m', "match", "TEXT", "only states with this text in their names", &match},
    {'f', "from", "DENSITY", "only states of at least this density, in kg/m³", &from},
    {'u', "to", "DENSITY", "only states of at most this density, in kg/m³", &to},
    {'n', "no-list", NULL, "without the list", &no_list},
    {0},
};

static const tool description = {
    "[OPTION]... SHEET.eas OUT.svg|OUT.png|OUT.pdf...",
    "Draws the states of a sheet over log10 of the density ratio, a panel for each wanted\n"
    "quantity, with a list of all states: number in the sheet, name, place and value. Marks\n"
    "have names where all find room, else the list's numbers. A state that the library\n"
    "refuses stands in the list with the reason, and a remark below its name. In SVG and PDF\n"
    "names and remarks can be searched for. A PDF whose list does not fit beside the panels\n"
    "has pages of A4: one for each panel, then the list.",
    options,
};

/* A density of an option; the end of the program where it is none. */
static double density_of(const char *name, const char *text, double otherwise) {
    char *end = NULL;
    double density = text ? strtod(text, &end) : otherwise;
    if (text && (end == text || *end || !(density >= 0)))
        misuse("--%s=%s: no density in kg/m³", name, text);
    return density;
}

static choice read_choice(void) {
    return (choice){match, density_of("from", from, 0), density_of("to", to, HUGE_VAL)};
}

int main(int argc, char **argv) {
    static uint8_t sheet[SHEET_MOST + 1];
    static item items[RECORDS_MOST];
    chart c = {.items = items};
    size_t n;
    int at = read_options(&description, argc, argv), failed = DONE;
    if (argc - at < 2)
        misuse("a sheet and a file to draw must be given");
    for (int i = at + 1; i < argc; i++)
        if (!is_figure_path(argv[i]))
            misuse("%s: no ending .svg, .png or .pdf", argv[i]);
    c.wanted = read_choice();
    c.no_list = no_list;
    if (load_sheet(argv[at], sheet, &n))
        return REFUSED;
    c.title = title ? title : base_name(input_name(argv[at]));
    gather(&c, sheet, n);
    if (c.count == 0 && c.of > 0)
        return refuse("%s: none of its %u states is chosen", input_name(argv[at]), c.of);
    for (int i = at + 1; i < argc; i++) {
        lay_out(&c, is_paged_path(argv[i]));
        failed |= draw_chart(&c, argv[i]);
    }
    return failed;
}
