/* stack: measures how much stack each entry of the library uses at most, and fails where one uses 128 KB or more.
 *
 * Each call runs on a thread that first fills the rest of its stack with marked bytes; the deepest byte that changed
 * tells the use, to within the caller's own frame. */
#include <pthread.h>
#include <stdio.h>
#include <stdlib.h>
#include <string.h>
#include <sys/mman.h>

#include "tools/record.h"

enum { STACK = 1 << 20, MARK = 0xA7, MOST = 128 * 1024, OWN = 512, SHEETS = 11, STATES = 192 };

typedef struct {
    uint8_t bytes[SHEET_MOST + 20];
    size_t n;
    int accepted;
} sheet;

static sheet sheets[SHEETS];
static const char *const names[] = {
    "%00", "%00%00", "%41", "absent", "a%2", "", "01234567890123456789012345678901234567890"};
enum { NAMES = sizeof names / sizeof *names };

/* What the running thread works on. */
static const sheet *current;
static const uint8_t *spelled;
static size_t spelled_length;

static volatile uint64_t sink;

static uint8_t long_list[SHEET_MOST];

static void call_check(void) {
    sink = eas_check(current->bytes, current->n);
}

static void call_find(void) {
    sink = eas_find(current->bytes, current->n, spelled, spelled_length).start;
}

static void call_remark(void) {
    sink = eas_remark(current->bytes, current->n, spelled, spelled_length).start;
}

static void call_search(void) {
    sink = (uint64_t)eas_search(current->bytes, current->n, spelled, spelled_length).value;
}

static void call_plot(void) {
    sink = eas_plot(current->bytes, current->n, spelled, spelled_length).blank;
}

static void call_line(void) {
    uint8_t line[LINE_MOST];
    sink = eas_line(current->bytes, current->n, spelled, spelled_length, line, sizeof line).length;
}

static void call_spell(void) {
    uint8_t text[SPELLED_MOST];
    sink = eas_spell(spelled, spelled_length, text, sizeof text).length;
}

static void call_read(void) {
    uint8_t name[NAME_MOST];
    sink = eas_read(spelled, spelled_length, name, sizeof name).length;
}

/* The name as a run list, and one as long as a run list may be. */
static void call_list(void) {
    static uint8_t text[SHEET_MOST * 8];
    sink = eas_list(current->bytes, current->n, spelled, spelled_length, text, sizeof text).length;
    sink = eas_list(current->bytes, current->n, long_list, sizeof long_list, text, sizeof text).length;
}

static void call_record_at(void) {
    sink = eas_record_at(current->bytes, current->n, 0).start;
    sink = eas_record_at(current->bytes, current->n, RECORDS_MOST).start;
}

static uint8_t converted[SHEET_MOST];

static void call_forward(void) {
    sink = eas_forward(current->bytes, current->n, converted, sizeof converted).length;
}

static void call_back(void) {
    sink = eas_back(current->bytes, current->n, converted, sizeof converted).length;
}

static void call_begin(void) {
    sink = eas_begin(current->bytes, current->n).walk.count;
}

/* Every state that add_record makes, and the end. */
static void call_next(void) {
    uint8_t line[LINE_MOST];
    for (uint32_t given = 0; given < STATES; given++)
        sink = eas_next(current->bytes, current->n, (eas_walk){given, STATES}, line, sizeof line).length;
    sink = eas_next(current->bytes, current->n, (eas_walk){STATES, STATES}, line, sizeof line).length;
}

static void call_add(void) {
    sink = eas_add(current->bytes, current->n, spelled, spelled_length, 1, UINT64_MAX, 0, converted, sizeof converted)
               .length;
}

/* Every record of the sheet, and a kind that is unknown. */
static void call_evaluate(void) {
    sink = eas_evaluate(0, 0, 0).number;
    size_t at = HEAD;
    for (unsigned left = current->accepted ? record_count(current->bytes) : 0; left > 0; left--) {
        const uint8_t *rest = current->bytes + at + 1 + current->bytes[at];
        sink = (uint64_t)eas_evaluate(rest[0], get_number(rest + 1, 8), get_number(rest + 9, 8)).value;
        at = (size_t)(rest - current->bytes) + RECORD_REST;
        at += sheet_version(current->bytes) == 2 ? 1u + current->bytes[at] : 0;
    }
}

/* The stack of the thread that calls, and what was used of it. */
typedef struct {
    uint8_t *stack;
    void (*work)(void);
    size_t used;
} measurement;

/* Marks the stack from a little below this frame on, calls, and looks for the deepest byte that changed. */
static void *run(void *argument) {
    measurement *m = argument;
    uint8_t *frame = __builtin_frame_address(0), *end = frame - OWN, *at = m->stack;
    memset(at, MARK, (size_t)(end - at));
    m->work();
    while (at < end && *at == MARK)
        at++;
    m->used = (size_t)(frame - at);
    return NULL;
}

/* Bytes of stack that this work uses, at least OWN. */
static size_t used(void (*work)(void)) {
    static uint8_t *stack;
    pthread_attr_t attributes;
    pthread_t thread;
    if (!stack)
        stack = mmap(NULL, STACK, PROT_READ | PROT_WRITE, MAP_PRIVATE | MAP_ANONYMOUS, -1, 0);
    if (stack == MAP_FAILED)
        exit(1);
    measurement m = {stack, work, 0};
    pthread_attr_init(&attributes);
    if (pthread_attr_setstack(&attributes, stack, STACK) || pthread_create(&thread, &attributes, run, &m))
        exit(1);
    pthread_join(thread, NULL);
    pthread_attr_destroy(&attributes);
    return m.used;
}

/* Adds a record; the states go over all bands and pieces of every kind, and each is joined in both strips. */
static void add_record(sheet *s, unsigned index) {
    static const uint64_t firsts[] = {101330000000, 5000000000000, 784084000, 78408400,
                                      254529,       717361463316,  0,         1000000000000};
    static const uint64_t densities[] = {129200000000, 12920000000, 81520,       6475339058,
                                         4085660,      1,           40856600000, 129200000000000};
    uint8_t name[2];
    size_t length = index < 256 ? 1 : 2;
    put_number(name, (int)length, index < 256 ? index : index - 256);
    s->n = append_record(s->bytes, s->n, name, length, (uint8_t)(index / 64 % 3 + 1), firsts[index % 8],
                         densities[index / 8 % 8]);
}

static void fill(sheet *s, size_t most) {
    s->n = put_head(s->bytes);
    for (unsigned index = 0; s->n + (index < 256 ? 19 : 20) <= most; index++)
        add_record(s, index);
}

/* An empty sheet, a small one, the fullest, one whose last name is repeated, and one that is too long; with the most
 * records of version 2, with the longest remarks, and with the last of these cut; the fullest that goes forward; a
 * small one of version 2, and a large one that takes every name more. */
static void make_sheets(void) {
    fill(&sheets[0], HEAD);
    fill(&sheets[1], 3000);
    fill(&sheets[2], SHEET_MOST);
    fill(&sheets[3], SHEET_MOST);
    memcpy(sheets[3].bytes + sheets[3].n - 20, sheets[3].bytes + sheets[3].n - 40, 3);
    fill(&sheets[4], SHEET_MOST + 20);
    sheets[5].n = put_with_remarks(sheets[5].bytes, sheets[2].bytes, 0);
    sheets[6].n = put_with_remarks(sheets[6].bytes, sheets[2].bytes, REMARK_MOST);
    sheets[7].n = put_with_remarks(sheets[7].bytes, sheets[2].bytes, REMARK_MOST) - 1;
    fill(&sheets[8], sheets[5].n - record_count(sheets[5].bytes));
    sheets[9].n = put_with_remarks(sheets[9].bytes, sheets[1].bytes, 0);
    fill(&sheets[10], sheets[8].n - RECORD_LEAST - NAME_MOST);
    memcpy(converted, sheets[10].bytes, sheets[10].n);
    sheets[10].n = put_with_remarks(sheets[10].bytes, converted, 0);
    for (int i = 0; i < SHEETS; i++)
        sheets[i].accepted = eas_check(sheets[i].bytes, sheets[i].n) == 0;
}

static size_t deepest(void (*work)(void)) {
    size_t most = 0;
    for (int i = 0; i < SHEETS; i++)
        for (int j = 0; j < NAMES; j++) {
            current = &sheets[i];
            spelled = (const uint8_t *)names[j];
            spelled_length = strlen(names[j]);
            size_t bytes = used(work);
            most = bytes > most ? bytes : most;
        }
    return most;
}

int main(void) {
    static const struct {
        const char *name;
        void (*work)(void);
    } entries[] = {
        {"eas_check", call_check},       {"eas_find", call_find},
        {"eas_remark", call_remark},     {"eas_record_at", call_record_at},
        {"eas_search", call_search},     {"eas_plot", call_plot},
        {"eas_evaluate", call_evaluate}, {"eas_line", call_line},
        {"eas_list", call_list},         {"eas_spell", call_spell},
        {"eas_read", call_read},         {"eas_forward", call_forward},
        {"eas_back", call_back},         {"eas_begin", call_begin},
        {"eas_next", call_next},         {"eas_add", call_add},
    };
    int failures = 0;
    make_sheets();
    for (size_t i = 0; i < sizeof long_list; i++)
        long_list[i] = i % 20 == 19 ? '\n' : 'a';
    for (size_t i = 0; i < sizeof entries / sizeof *entries; i++) {
        size_t bytes = deepest(entries[i].work);
        printf("%-13s %6zu bytes of stack\n", entries[i].name, bytes);
        failures += bytes >= MOST;
    }
    printf("stack: %zu checks, %d failures\n", sizeof entries / sizeof *entries, failures);
    return failures != 0;
}
