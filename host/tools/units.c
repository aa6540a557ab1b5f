#include "units.h"

#include <ctype.h>
#include <string.h>
#include <strings.h>

enum { PRESSURE, ENERGY, DENSITY, UNIT_COUNT = 15, HEADING_ROOM = 48, NEAR = 2 };

/* Pound-force, inch, atmosphere and torr by their definitions: psi is 0.45359237·9.80665/0.0254² Pa, Torr 101325/760.
 */
static const struct {
    const char *name;
    int of;
    uint64_t over, under;
} table[UNIT_COUNT] = {
    {"Pa", PRESSURE, 1, 1},
    {"hPa", PRESSURE, 100, 1},
    {"kPa", PRESSURE, 1000, 1},
    {"MPa", PRESSURE, 1000000, 1},
    {"mbar", PRESSURE, 100, 1},
    {"bar", PRESSURE, 100000, 1},
    {"atm", PRESSURE, 101325, 1},
    {"Torr", PRESSURE, 20265, 152},
    {"psi", PRESSURE, UINT64_C(8896443230521), 1290320000},
    {"kg/m3", DENSITY, 1, 1},
    {"g/cm3", DENSITY, 1000, 1},
    {"g/l", DENSITY, 1, 1},
    {"J/kg", ENERGY, 1, 1},
    {"kJ/kg", ENERGY, 1000, 1},
    {"MJ/kg", ENERGY, 1000000, 1},
};

/* How a text may call a quantity. */
static const struct {
    const char *word;
    int of;
} words[] = {{"pressure", PRESSURE}, {"p", PRESSURE},    {"density", DENSITY}, {"rho", DENSITY},
             {"\xcf\x81", DENSITY},  {"energy", ENERGY}, {"e", ENERGY}};

static const unit *unit_at(int i) {
    static unit units[UNIT_COUNT];
    units[i] = (unit){table[i].name, given[table[i].of], table[i].over, table[i].under};
    return &units[i];
}

const unit *si_unit(const quantity *q) {
    int i = 0;
    while (given[table[i].of] != q)
        i++;
    return unit_at(i);
}

/* The quantity that a word of n bytes calls, as its place in `given`, or -1. */
static int called(const char *word, size_t n) {
    for (size_t i = 0; i < sizeof words / sizeof *words; i++)
        if (strlen(words[i].word) == n && !strncasecmp(words[i].word, word, n))
            return words[i].of;
    return -1;
}

/* A heading as "word_unit": brackets, the blanks before them and around it are taken out, m³ and m^3 become m3, and a
 * slash an underscore. False where it is too long to be one. */
static bool simplify(field heading, char out[HEADING_ROOM]) {
    size_t used = 0;
    for (size_t i = 0; i < heading.length; i++) {
        char c = heading.text[i];
        bool cube = i + 1 < heading.length && !memcmp(heading.text + i, "\xc2\xb3", 2);
        if (strchr(" \t^])", c) && c != '\0')
            continue;
        if (used + 2 > HEADING_ROOM || c == '\0')
            return false;
        if (cube)
            c = '3';
        else if (strchr("[(/", c))
            c = '_';
        out[used++] = c;
        i += cube;
    }
    out[used] = '\0';
    return used > 0;
}

/* Whether "kg_m3" is the unit "kg/m3". */
static bool is_unit(const char *simple, const char *name) {
    for (; *simple && *name; simple++, name++)
        if (*simple != (*name == '/' ? '_' : *name) && !(*simple == 'L' && *name == 'l' && !name[1]))
            return false;
    return *simple == *name;
}

const unit *unit_called(field heading) {
    char simple[HEADING_ROOM];
    const char *rest = simplify(heading, simple) ? strchr(simple, '_') : NULL;
    int of = rest ? called(simple, (size_t)(rest - simple)) : -1;
    for (int i = 0; of >= 0 && i < UNIT_COUNT; i++)
        if (table[i].of == of && is_unit(rest + 1, table[i].name))
            return unit_at(i);
    return NULL;
}

static int least(int a, int b) {
    return a < b ? a : b;
}

/* How many letters must be put in, left out or changed to make one word of the other, in whatever case. */
static int distance(const char *a, const char *b) {
    int row[HEADING_ROOM + 1], m = (int)strlen(b);
    for (int j = 0; j <= m; j++)
        row[j] = j;
    for (int i = 1; *a; a++, i++) {
        int corner = row[0];
        row[0] = i;
        for (int j = 1; j <= m; j++) {
            int above = row[j];
            bool same = tolower((unsigned char)*a) == tolower((unsigned char)b[j - 1]);
            row[j] = least(corner + !same, 1 + least(above, row[j - 1]));
            corner = above;
        }
    }
    return row[m];
}

/* Keeps a heading in `best` where it is nearer than what was the nearest. */
static void compare(const char *simple, const char *heading, int *near, char best[HEADING_ROOM]) {
    int apart = distance(simple, heading);
    if (apart >= *near || apart >= (int)strlen(heading) - 1)
        return;
    *near = apart;
    snprintf(best, HEADING_ROOM, "%s", heading);
}

const char *nearest_heading(field heading, const char *const *others, int count) {
    static char best[HEADING_ROOM];
    char simple[HEADING_ROOM], proposed[HEADING_ROOM];
    int near = NEAR + 1;
    if (!simplify(heading, simple))
        return NULL;
    int of = called(simple, strcspn(simple, "_"));
    for (int i = 0; i < count; i++)
        compare(simple, others[i], &near, best);
    for (int i = 0; i < UNIT_COUNT; i++) {
        snprintf(proposed, sizeof proposed, "%s_%s", given[table[i].of]->name, table[i].name);
        for (char *slash = strchr(proposed, '/'); slash; slash = NULL)
            *slash = '_';
        compare(simple, proposed, &near, best);
    }
    if (near > NEAR && of >= 0)
        snprintf(best, sizeof best, "%s", given[of]->heading);
    return near <= NEAR || of >= 0 ? best : NULL;
}
