/* bench [STATES [LISTING-PROGRAM]]: times the library and a plain C baseline side by side and prints a Markdown table.
 *
 * Temperature, entropy and pressure are measured against the listing in doubles with libm, the rest against a
 * calculator in plain C that makes the same checks and finds names by chained hashing. Each row is the median of
 * several repetitions, in which library and baseline take turns, and nothing is judged by time. With a listing program
 * given, that program is run on many names against this one run as a listing. */
#include <fcntl.h>
#include <math.h>
#include <spawn.h>
#include <stdio.h>
#include <stdlib.h>
#include <string.h>
#include <sys/resource.h>
#include <sys/wait.h>
#include <time.h>
#include <unistd.h>

#include "chain.h"
#include "plain/baseline.h"
#include "plain/tgas.h"
#include "random.h"
#include "tools/record.h"

enum { REPETITIONS = 9, NAMES = 3000, SEED = 20260101 };

typedef struct {
    uint64_t first, second;
} pair;

typedef struct {
    const uint8_t *bytes;
    size_t length;
} text;

static size_t states;
static pair *temperatures, *entropies, *pressures, *singles, *joins, *single_pressures, *joined_pressures;
static uint8_t small_sheet[SHEET_MOST + 1], full_sheet[SHEET_MOST];
static size_t small_size, full_size;

/* The first of the same states in as many bytes, with remarks: empty ones, short ones and the longest. */
enum { SHORT_REMARK = 8 };
static uint8_t remarked_sheet[SHEET_MOST], short_sheet[SHEET_MOST], long_sheet[SHEET_MOST];
static size_t remarked_size, short_size, long_size;

/* What is converted: the fullest sheet that goes forward, the small one as it goes back; remarked_sheet goes back too.
 */
static uint8_t forward_sheet[SHEET_MOST], small_back_sheet[SHEET_MOST], converted[SHEET_MOST];
static size_t forward_size, small_back_size;

/* The fullest sheet of version 2 but for its last state, which therefore takes one more. */
static uint8_t growing_sheet[SHEET_MOST];
static size_t growing_size;

/* A sheet as slow as any that was found: all its names fall into one chain of the library's index, and it cannot
 * be foretold where two of them differ. Eight bytes of a name are the same in all, four have one of two values each,
 * three put it into the chain. */
enum { CHAINED_SAME = 8, CHAINED_EITHER = 4, CHAINED_NAME = CHAINED_SAME + CHAINED_EITHER + CHAINED_BYTES };
static uint8_t chained_sheet[SHEET_MOST], chained_list[SHEET_MOST];
static size_t chained_size, chained_list_size;

static text small_names[3], full_names[NAMES];
static uint8_t name_list[SHEET_MOST + 1];
static size_t name_list_size;
static volatile double sink;

/* standard·10^logarithm, to the nearest whole number. */
static uint64_t scaled(uint64_t standard, double logarithm) {
    return (uint64_t)llround((double)standard * pow(10, logarithm));
}

static pair *room_for_states(void) {
    pair *room = malloc(states * sizeof *room);
    if (!room)
        exit(1);
    return room;
}

/* Where states lie: anywhere, fitted outside the strips, or fitted inside them. */
typedef enum { ANY, OUTSIDE, INSIDE } where;

static int is_there(const eas_answer *a, where w) {
    int64_t middle, half;
    return w == ANY || inside_strip(a->y, &middle, &half) == (w == INSIDE);
}

/* y over the plane, or over one strip or the other. */
static double random_y(random_source *r, where w) {
    double middle = MILLIONTHS(LOWER_EDGE), half = MILLIONTHS(LOWER_HALF);
    if (w != INSIDE)
        return -7 + 10 * random_unit(r);
    if (random_below(r, 2)) {
        middle = MILLIONTHS(UPPER_EDGE);
        half = MILLIONTHS(UPPER_HALF);
    }
    return middle + half * (2 * random_unit(r) - 1);
}

/* z of a state: two thirds of any temperatures are fitted, two thirds of any pressures by more than a constant; all are
 * where a place is asked for. An entropy goes over all of its range. */
static double random_z(random_source *r, uint32_t kind, where w, size_t i) {
    double constant = kind == 1 ? MILLIONTHS(PERFECT_Z) : MILLIONTHS(pressure_end[LOW][0]);
    double range = kind == 1 ? 2.3 : 3.04;
    if (kind == 2)
        return -0.99 + 4.6 * random_unit(r);
    return w != ANY || i % 3 ? constant + 1.5e-6 + range * random_unit(r) : -0.99 + (constant + 0.98) * random_unit(r);
}

/* Every state is accepted. */
static pair *make_kind(random_source *r, uint32_t kind, where w) {
    pair *made = room_for_states();
    for (size_t i = 0; i < states;) {
        double y = random_y(r, w), z = random_z(r, kind, w, i);
        uint64_t first = kind == 1 ? scaled(STANDARD_PRESSURE, y + z) : scaled(STANDARD_ENERGY, z);
        made[i] = (pair){first, scaled(STANDARD_DENSITY, y)};
        eas_answer a = eas_evaluate(kind, made[i].first, made[i].second);
        i += a.number == 0 && is_there(&a, w);
    }
    return made;
}

static void make_states(void) {
    random_source r = random_case(SEED, 0, 0);
    temperatures = make_kind(&r, 1, ANY);
    entropies = make_kind(&r, 2, ANY);
    singles = make_kind(&r, 1, OUTSIDE);
    joins = make_kind(&r, 1, INSIDE);
    pressures = make_kind(&r, 3, ANY);
    single_pressures = make_kind(&r, 3, OUTSIDE);
    joined_pressures = make_kind(&r, 3, INSIDE);
}

static void make_small_sheet(void) {
    static const char *const names[] = {"nose/cap 1", "42", "hot"}, *const spelled[] = {"nose%2Fcap%201", "42", "hot"};
    small_size = put_head(small_sheet);
    for (int i = 0; i < 3; i++) {
        small_size = append_record(small_sheet, small_size, (const uint8_t *)names[i], strlen(names[i]), 1,
                                   temperatures[i].first, temperatures[i].second);
        small_names[i] = (text){(const uint8_t *)spelled[i], strlen(spelled[i])};
    }
}

/* The most records that fit: every name of one byte, then names of two. */
static void make_full_sheet(void) {
    full_size = put_head(full_sheet);
    for (unsigned i = 0; full_size + RECORD_LEAST + (i < 256 ? 0u : 1u) <= SHEET_MOST; i++) {
        uint8_t name[2];
        size_t length = i < 256 ? 1 : 2;
        put_number(name, (int)length, i < 256 ? i : i - 256);
        const pair *const of_kind[] = {temperatures, entropies, pressures};
        pair p = of_kind[i % 3][i % states];
        full_size = append_record(full_sheet, full_size, name, length, (uint8_t)(1 + i % 3), p.first, p.second);
    }
}

/* As many records as fit, and the list of all their names. */
static void make_chained_sheet(void) {
    enum { FORMS = 1 << CHAINED_EITHER };
    uint8_t names[FORMS][CHAINED_NAME] = {0};
    random_source r = random_case(SEED, 1, 0);
    size_t at = HEAD;
    for (unsigned i = 0; i < FORMS * CHAINED_NAME; i++) {
        unsigned form = i / CHAINED_NAME, place = i % CHAINED_NAME;
        if (place < CHAINED_SAME + CHAINED_EITHER)
            names[form][place] = place < CHAINED_SAME ? 'x' : (uint8_t)('a' + (form >> (place - CHAINED_SAME) & 1));
    }
    chained_size = put_head(chained_sheet);
    while (length_with(chained_sheet, chained_size, CHAINED_NAME, 0) <= SHEET_MOST) {
        uint8_t *name = names[random_below(&r, FORMS)];
        pair p = temperatures[record_count(chained_sheet) % states];
        next_in_chain(name, CHAINED_NAME);
        chained_size = append_record(chained_sheet, chained_size, name, CHAINED_NAME, 1, p.first, p.second);
        state s = next_state(chained_sheet, &at);
        memcpy(chained_list + chained_list_size, s.spelled, s.spelled_length);
        chained_list_size += s.spelled_length;
        chained_list[chained_list_size++] = '\n';
    }
}

/* The last record has a name of two bytes and an empty remark. */
static void make_growing_sheet(void) {
    memcpy(growing_sheet, remarked_sheet, remarked_size);
    growing_size = remarked_size - (1 + 2 + RECORD_REST + 1);
    put_number(growing_sheet + 5, 2, record_count(remarked_sheet) - 1u);
}

/* NAMES of the fullest sheet's names, spelled, each on a line, in an order that is not the sheet's. */
static void make_names(void) {
    size_t at = HEAD, used = 0;
    unsigned count = record_count(full_sheet), kept = 0;
    static uint8_t spelled[NAMES][SPELLED_MOST];
    for (unsigned i = 0; i < count && kept < NAMES; i++) {
        state s = next_state(full_sheet, &at);
        unsigned place = (unsigned)((uint64_t)kept++ * 1237 % NAMES);
        memcpy(spelled[place], s.spelled, s.spelled_length);
        full_names[place] = (text){spelled[place], s.spelled_length};
    }
    for (unsigned i = 0; i < NAMES; i++) {
        memcpy(name_list + used, full_names[i].bytes, full_names[i].length);
        used += full_names[i].length;
        name_list[used++] = '\n';
    }
    name_list_size = used;
}

enum { SMALL_CALLS = 30000, FULL_CALLS = 300, CHAINED_CALLS = 3 };

/* A timed job: the sum of one number a call, so that no call can be left out. */
#define JOB(name, calls, number)                                                                                       \
    static double name(void) {                                                                                         \
        double sum = 0;                                                                                                \
        for (size_t i = 0; i < (calls); i++)                                                                           \
            sum += (double)(number);                                                                                   \
        return sum;                                                                                                    \
    }

static uint8_t line[LINE_MOST];

/* A walk of NAMES records that has given some. */
static eas_walk walk_at(size_t given) {
    return (eas_walk){(uint32_t)given, NAMES};
}

#define SMALL small_sheet, small_size, small_names[i % 3].bytes, small_names[i % 3].length
#define FULL full_sheet, full_size, full_names[i].bytes, full_names[i].length
#define NEW (const uint8_t *)"new", 3, 1, STANDARD_PRESSURE, STANDARD_DENSITY, converted, sizeof converted
#define REMARKED remarked_sheet, remarked_size, full_names[i].bytes, full_names[i].length

JOB(library_temperature, states, eas_evaluate(1, temperatures[i].first, temperatures[i].second).value)
JOB(listing_temperature, states, tgas1_temperature(temperatures[i].first, temperatures[i].second))
JOB(library_single, states, eas_evaluate(1, singles[i].first, singles[i].second).value)
JOB(listing_single, states, tgas1_temperature(singles[i].first, singles[i].second))
JOB(library_join, states, eas_evaluate(1, joins[i].first, joins[i].second).value)
JOB(listing_join, states, tgas1_temperature(joins[i].first, joins[i].second))
JOB(library_entropy, states, eas_evaluate(2, entropies[i].first, entropies[i].second).value)
JOB(listing_entropy, states, tgas2_entropy(entropies[i].first, entropies[i].second))
JOB(library_pressure, states, eas_evaluate(3, pressures[i].first, pressures[i].second).value)
JOB(listing_pressure, states, tgas1_pressure(pressures[i].first, pressures[i].second))
JOB(library_single_pressure, states, eas_evaluate(3, single_pressures[i].first, single_pressures[i].second).value)
JOB(listing_single_pressure, states, tgas1_pressure(single_pressures[i].first, single_pressures[i].second))
JOB(library_joined_pressure, states, eas_evaluate(3, joined_pressures[i].first, joined_pressures[i].second).value)
JOB(listing_joined_pressure, states, tgas1_pressure(joined_pressures[i].first, joined_pressures[i].second))
JOB(library_search_small, SMALL_CALLS, eas_search(SMALL).value)
JOB(baseline_search_small, SMALL_CALLS, baseline_search(SMALL).value)
JOB(library_check, FULL_CALLS, eas_check(full_sheet, full_size))
JOB(plain_check, FULL_CALLS, baseline_check(full_sheet, full_size))
JOB(library_check_remarked, FULL_CALLS, eas_check(remarked_sheet, remarked_size))
JOB(plain_check_remarked, FULL_CALLS, baseline_check(remarked_sheet, remarked_size))
JOB(library_check_short, FULL_CALLS, eas_check(short_sheet, short_size))
JOB(plain_check_short, FULL_CALLS, baseline_check(short_sheet, short_size))
JOB(library_check_long, FULL_CALLS, eas_check(long_sheet, long_size))
JOB(plain_check_long, FULL_CALLS, baseline_check(long_sheet, long_size))
JOB(library_search_full, FULL_CALLS, eas_search(FULL).value)
JOB(baseline_search_full, FULL_CALLS, baseline_search(FULL).value)
JOB(library_search_remarked, FULL_CALLS, eas_search(REMARKED).value)
JOB(baseline_search_remarked, FULL_CALLS, baseline_search(REMARKED).value)
JOB(library_forward_small, SMALL_CALLS, eas_forward(small_sheet, small_size, converted, sizeof converted).length)
JOB(plain_forward_small, SMALL_CALLS, baseline_forward(small_sheet, small_size, converted, sizeof converted).length)
JOB(library_back_small, SMALL_CALLS, eas_back(small_back_sheet, small_back_size, converted, sizeof converted).length)
JOB(plain_back_small, SMALL_CALLS, baseline_back(small_back_sheet, small_back_size, converted, sizeof converted).length)
JOB(library_forward, FULL_CALLS, eas_forward(forward_sheet, forward_size, converted, sizeof converted).length)
JOB(plain_forward, FULL_CALLS, baseline_forward(forward_sheet, forward_size, converted, sizeof converted).length)
JOB(library_back, FULL_CALLS, eas_back(remarked_sheet, remarked_size, converted, sizeof converted).length)
JOB(plain_back, FULL_CALLS, baseline_back(remarked_sheet, remarked_size, converted, sizeof converted).length)
JOB(library_add_small, SMALL_CALLS, eas_add(small_back_sheet, small_back_size, NEW).length)
JOB(plain_add_small, SMALL_CALLS, baseline_add(small_back_sheet, small_back_size, NEW).length)
JOB(library_add, FULL_CALLS, eas_add(growing_sheet, growing_size, NEW).length)
JOB(plain_add, FULL_CALLS, baseline_add(growing_sheet, growing_size, NEW).length)
JOB(library_step_small, SMALL_CALLS, eas_next(small_sheet, small_size, walk_at(i % 3), line, sizeof line).length)
JOB(plain_step_small, SMALL_CALLS, baseline_next(small_sheet, small_size, walk_at(i % 3), line, sizeof line).length)
JOB(library_step, FULL_CALLS, eas_next(full_sheet, full_size, walk_at(i), line, sizeof line).length)
JOB(plain_step, FULL_CALLS, baseline_next(full_sheet, full_size, walk_at(i), line, sizeof line).length)
JOB(library_check_chained, CHAINED_CALLS, eas_check(chained_sheet, chained_size))
JOB(plain_check_chained, CHAINED_CALLS, baseline_check(chained_sheet, chained_size))
JOB(library_step_chained, CHAINED_CALLS, eas_next(chained_sheet, chained_size, walk_at(i), line, sizeof line).length)
JOB(plain_step_chained, CHAINED_CALLS, baseline_next(chained_sheet, chained_size, walk_at(i), line, sizeof line).length)
JOB(library_line, SMALL_CALLS, eas_line(SMALL, line, sizeof line).length)
JOB(plain_line, SMALL_CALLS, baseline_line(SMALL, (char *)line))
JOB(library_lines, NAMES, eas_line(FULL, line, sizeof line).length)
JOB(plain_lines, NAMES, baseline_line(FULL, (char *)line))

static uint8_t listing[NAMES * LINE_MOST];
static FILE *nowhere;

static double library_list(void) {
    return (double)eas_list(full_sheet, full_size, name_list, name_list_size, listing, sizeof listing).length;
}

static double plain_list(void) {
    baseline_listing(full_sheet, full_size, name_list, name_list_size, nowhere);
    return fflush(nowhere);
}

static double library_list_remarked(void) {
    return (double)eas_list(remarked_sheet, remarked_size, name_list, name_list_size, listing, sizeof listing).length;
}

static double plain_list_remarked(void) {
    baseline_listing(remarked_sheet, remarked_size, name_list, name_list_size, nowhere);
    return fflush(nowhere);
}

static double library_list_chained(void) {
    return (double)eas_list(chained_sheet, chained_size, chained_list, chained_list_size, listing, sizeof listing)
        .length;
}

static double plain_list_chained(void) {
    baseline_listing(chained_sheet, chained_size, chained_list, chained_list_size, nowhere);
    return fflush(nowhere);
}

/* A walk over the records whose names are listed, in the sheet's order. */
static double walk_on(eas_begun begun, eas_step (*next)(const uint8_t *, size_t, eas_walk, uint8_t *, size_t)) {
    eas_step step = {.walk = {begun.walk.given, NAMES}};
    double bytes = 0;
    do {
        step = next(full_sheet, full_size, step.walk, line, sizeof line);
        bytes += (double)step.length;
    } while (step.length > 0);
    return bytes;
}

static double library_walk(void) {
    return walk_on(eas_begin(full_sheet, full_size), eas_next);
}

static double plain_walk(void) {
    return walk_on(baseline_begin(full_sheet, full_size), baseline_next);
}

static const char *program, *self;

/* Runs a program in the current folder, names from the file `names`, output thrown away. It is spawned, not forked, so
 * that this program's own memory costs nothing. */
static double run(const char *path, const char *argument) {
    char *const words[] = {(char *)path, (char *)argument, NULL};
    posix_spawn_file_actions_t files;
    pid_t child;
    int status = 1;
    if (posix_spawn_file_actions_init(&files) || posix_spawn_file_actions_addopen(&files, 0, "names", O_RDONLY, 0) ||
        posix_spawn_file_actions_addopen(&files, 1, "/dev/null", O_WRONLY, 0) ||
        posix_spawn(&child, path, &files, NULL, words, environ) || waitpid(child, &status, 0) < 0 || status != 0) {
        fprintf(stderr, "bench: %s cannot be run\n", path);
        exit(1);
    }
    posix_spawn_file_actions_destroy(&files);
    return 0;
}

static double library_program(void) {
    return run(program, NULL);
}

static double plain_program(void) {
    return run(self, "--listing");
}

/* What the listing program does, in plain C. */
static int be_the_listing(void) {
    FILE *file = fopen("sheet.eas", "rb");
    size_t n = file ? fread(small_sheet, 1, sizeof small_sheet, file) : 0;
    if (file)
        fclose(file);
    size_t length = fread(name_list, 1, sizeof name_list, stdin);
    baseline_listing(small_sheet, n, name_list, length, stdout);
    return 0;
}

/* What is measured with NAMES names. */
static char lines_title[48], walk_title[48], list_title[48], remarked_title[64], program_title[48];

static void make_titles(void) {
    snprintf(lines_title, sizeof lines_title, "%d,%03d listing lines, fullest sheet", NAMES / 1000, NAMES % 1000);
    snprintf(walk_title, sizeof walk_title, "a walk of %d,%03d steps, fullest sheet", NAMES / 1000, NAMES % 1000);
    snprintf(list_title, sizeof list_title, "%d,%03d names in one call, fullest sheet", NAMES / 1000, NAMES % 1000);
    snprintf(remarked_title, sizeof remarked_title, "%s of version 2", list_title);
    snprintf(program_title, sizeof program_title, "the listing program, %d,%03d names", NAMES / 1000, NAMES % 1000);
}

typedef struct {
    const char *what, *unit;
    double (*library)(void), (*baseline)(void);
    double calls, per_second; /* calls a repetition; units a second */
} row;

/* Processor seconds of this process and of the programs that it ran, so that other work on the machine counts little.
 */
static double processor_seconds(void) {
    struct timespec own;
    struct rusage ran;
    clock_gettime(CLOCK_PROCESS_CPUTIME_ID, &own);
    getrusage(RUSAGE_CHILDREN, &ran);
    return (double)(own.tv_sec + ran.ru_utime.tv_sec + ran.ru_stime.tv_sec) + (double)own.tv_nsec * 1e-9 +
           (double)(ran.ru_utime.tv_usec + ran.ru_stime.tv_usec) * 1e-6;
}

static double seconds(double (*work)(void)) {
    double from = processor_seconds();
    sink = work();
    return processor_seconds() - from;
}

static int by_size(const void *a, const void *b) {
    double x = *(const double *)a, y = *(const double *)b;
    return (x > y) - (x < y);
}

/* The middle, the least and the most of sorted times, with three digits or more. */
static void print_times(const double times[REPETITIONS]) {
    int digits = times[0] < 10 ? 2 : times[0] < 100 ? 1 : 0;
    printf("| %.*f (%.*f to %.*f) ", digits, times[REPETITIONS / 2], digits, times[0], digits, times[REPETITIONS - 1]);
}

static void measure(const row *r) {
    double library[REPETITIONS], baseline[REPETITIONS], scale = r->per_second / r->calls;
    sink = r->library() + r->baseline();
    for (int i = 0; i < REPETITIONS; i++) {
        library[i] = scale * seconds(r->library);
        baseline[i] = scale * seconds(r->baseline);
    }
    qsort(library, REPETITIONS, sizeof *library, by_size);
    qsort(baseline, REPETITIONS, sizeof *baseline, by_size);
    printf("| %s, %s ", r->what, r->unit);
    print_times(library);
    print_times(baseline);
    printf("| %.2f |\n", library[REPETITIONS / 2] / baseline[REPETITIONS / 2]);
    fflush(stdout);
}

static void write_file(const char *path, const uint8_t *bytes, size_t n) {
    FILE *file = fopen(path, "wb");
    size_t written = file ? fwrite(bytes, 1, n, file) : 0;
    if (!file || fclose(file) || written != n)
        exit(1);
}

/* Runs both listings in a folder of their own. */
static void measure_program(const char *path) {
    static const row r = {program_title, "ms", library_program, plain_program, 1, 1e3};
    char folder[] = "/tmp/bench-XXXXXX", full[4096], own[4096];
    if (!realpath(path, full) || !realpath("/proc/self/exe", own) || !mkdtemp(folder) || chdir(folder)) {
        fprintf(stderr, "bench: %s cannot be run\n", path);
        exit(1);
    }
    program = full;
    self = own;
    write_file("sheet.eas", full_sheet, full_size);
    write_file("names", name_list, name_list_size);
    measure(&r);
    unlink("sheet.eas");
    unlink("names");
    rmdir(folder);
}

static void make_all(void) {
    make_states();
    make_small_sheet();
    make_full_sheet();
    remarked_size = put_with_remarks(remarked_sheet, full_sheet, 0);
    short_size = put_with_remarks(short_sheet, full_sheet, SHORT_REMARK);
    long_size = put_with_remarks(long_sheet, full_sheet, REMARK_MOST);
    forward_size = baseline_back(remarked_sheet, remarked_size, forward_sheet, sizeof forward_sheet).length;
    small_back_size = baseline_forward(small_sheet, small_size, small_back_sheet, sizeof small_back_sheet).length;
    make_growing_sheet();
    make_chained_sheet();
    make_names();
    make_titles();
}

static void print_head(void) {
    printf("%zu temperatures, two thirds fitted, as many fitted outside the strips and joined in them, as many "
           "entropies, and pressures as temperatures; ",
           states);
    printf("the fullest sheet has %u states in %zu bytes, ", record_count(full_sheet), full_size);
    printf("of version 2 %u in %zu, with remarks of %d bytes %u, with the longest %u; ", record_count(remarked_sheet),
           remarked_size, SHORT_REMARK, record_count(short_sheet), record_count(long_sheet));
    printf("the fullest that goes forward has %u in %zu bytes, ", record_count(forward_sheet), forward_size);
    printf("the one that takes one more %u in %zu; ", record_count(growing_sheet), growing_size);
    printf("the one whose names fall into one chain %u, with names of %d bytes.\n", record_count(chained_sheet),
           CHAINED_NAME);
    printf("Processor time: median of %d repetitions (least to most).\n\n", REPETITIONS);
    printf("| what | library | plain C | ratio |\n|---|---|---|---|\n");
}

static void measure_rows(void) {
    const row rows[] = {
        {"temperature", "ns", library_temperature, listing_temperature, (double)states, 1e9},
        {"temperature, fitted outside the strips", "ns", library_single, listing_single, (double)states, 1e9},
        {"temperature, joined in a strip", "ns", library_join, listing_join, (double)states, 1e9},
        {"entropy", "ns", library_entropy, listing_entropy, (double)states, 1e9},
        {"pressure", "ns", library_pressure, listing_pressure, (double)states, 1e9},
        {"pressure, fitted outside the strips", "ns", library_single_pressure, listing_single_pressure, (double)states,
         1e9},
        {"pressure, joined in a strip", "ns", library_joined_pressure, listing_joined_pressure, (double)states, 1e9},
        {"search, sheet of 3 states", "ns", library_search_small, baseline_search_small, SMALL_CALLS, 1e9},
        {"check, fullest sheet", "µs", library_check, plain_check, FULL_CALLS, 1e6},
        {"check, fullest sheet of version 2", "µs", library_check_remarked, plain_check_remarked, FULL_CALLS, 1e6},
        {"check, remarks of 8 bytes", "µs", library_check_short, plain_check_short, FULL_CALLS, 1e6},
        {"check, longest remarks", "µs", library_check_long, plain_check_long, FULL_CALLS, 1e6},
        {"search, fullest sheet", "µs", library_search_full, baseline_search_full, FULL_CALLS, 1e6},
        {"search, fullest sheet of version 2", "µs", library_search_remarked, baseline_search_remarked, FULL_CALLS,
         1e6},
        {"forward, sheet of 3 states", "ns", library_forward_small, plain_forward_small, SMALL_CALLS, 1e9},
        {"back, sheet of 3 states", "ns", library_back_small, plain_back_small, SMALL_CALLS, 1e9},
        {"forward, fullest sheet that goes forward", "µs", library_forward, plain_forward, FULL_CALLS, 1e6},
        {"back, fullest sheet of version 2", "µs", library_back, plain_back, FULL_CALLS, 1e6},
        {"add, sheet of 3 states", "ns", library_add_small, plain_add_small, SMALL_CALLS, 1e9},
        {"add, fullest sheet that takes one more", "µs", library_add, plain_add, FULL_CALLS, 1e6},
        {"step of a walk, sheet of 3 states", "ns", library_step_small, plain_step_small, SMALL_CALLS, 1e9},
        {"step of a walk, fullest sheet", "µs", library_step, plain_step, FULL_CALLS, 1e6},
        {"listing line, sheet of 3 states", "ns", library_line, plain_line, SMALL_CALLS, 1e9},
        {lines_title, "ms", library_lines, plain_lines, 1, 1e3},
        {walk_title, "ms", library_walk, plain_walk, 1, 1e3},
        {list_title, "ms", library_list, plain_list, 1, 1e3},
        {remarked_title, "ms", library_list_remarked, plain_list_remarked, 1, 1e3},
        {"check, names in one chain", "ms", library_check_chained, plain_check_chained, CHAINED_CALLS, 1e3},
        {"step of a walk, names in one chain", "ms", library_step_chained, plain_step_chained, CHAINED_CALLS, 1e3},
        {"all names in one call, names in one chain", "ms", library_list_chained, plain_list_chained, 1, 1e3},
    };
    for (size_t i = 0; i < sizeof rows / sizeof *rows; i++)
        measure(&rows[i]);
}

int main(int argc, char **argv) {
    if (argc == 2 && !strcmp(argv[1], "--listing"))
        return be_the_listing();
    states = argc > 1 ? strtoul(argv[1], NULL, 10) : 1000000;
    nowhere = fopen("/dev/null", "w");
    if (states < 3 || !nowhere)
        return 2;
    make_all();
    print_head();
    measure_rows();
    if (argc > 2)
        measure_program(argv[2]);
    fclose(nowhere);
    return 0;
}
