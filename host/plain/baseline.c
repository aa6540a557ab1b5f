#include "baseline.h"

#include <math.h>
#include <stdio.h>
#include <string.h>

#include "tgas.h"
#include "tools/record.h"

enum { SLOTS = 8192, MOST_RECORDS = 65536 / 19 + 1, NONE = 0xffff };

/* Names seen so far: chains of record places by hash, in as many slots as the sheet's count asks for. */
typedef struct {
    uint32_t mask;
    unsigned count;
    uint16_t head[SLOTS];
    struct {
        uint32_t hash, at, next;
    } entry[MOST_RECORDS];
} table;

static uint32_t hash_of(const uint8_t *name, size_t length) {
    uint32_t hash = (uint32_t)length;
    for (size_t i = 0; i < length; i++)
        hash = (hash ^ name[i]) * 2654435761u;
    return hash ^ hash >> 15;
}

/* The record with this name, or NONE. */
static inline unsigned place_of(const table *t, const uint8_t *sheet, const uint8_t *name, size_t length,
                                uint32_t hash) {
    unsigned i = t->head[hash & t->mask];
    for (; i != NONE; i = t->entry[i].next) {
        const uint8_t *record = sheet + t->entry[i].at;
        if (t->entry[i].hash == hash && record[0] == length && !memcmp(record + 1, name, length))
            return i;
    }
    return NONE;
}

/* Adds the record whose length byte stands at `at`; 0 where an equal name is there already. */
static inline int add(table *t, const uint8_t *sheet, uint32_t at) {
    const uint8_t *name = sheet + at + 1;
    size_t length = sheet[at];
    uint32_t hash = hash_of(name, length);
    if (place_of(t, sheet, name, length, hash) != NONE)
        return 0;
    uint16_t *head = &t->head[hash & t->mask];
    t->entry[t->count].hash = hash;
    t->entry[t->count].at = at;
    t->entry[t->count].next = *head;
    *head = (uint16_t)t->count++;
    return 1;
}

static uint64_t number_at(const uint8_t *from) {
    uint64_t number = 0;
    for (int i = 0; i < 8; i++)
        number = number << 8 | from[i];
    return number;
}

static inline int is_known(uint32_t kind) {
    return kind >= 1 && kind <= 3;
}

/* Where the record ends whose values end at `at`: behind its remark in version 2. Beyond n where that is cut. */
static inline size_t record_end(const uint8_t *sheet, size_t n, size_t at) {
    if (sheet[4] == 1 || at > n)
        return at;
    return at == n ? n + 1 : at + 1 + sheet[at];
}

/* The refusal of the record at *at, or 0 with *at moved past it. */
static inline uint32_t check_record(table *t, const uint8_t *sheet, size_t n, size_t *at) {
    if (*at >= n)
        return 4;
    size_t length = sheet[*at];
    if (length == 0 || length > 40)
        return 5;
    size_t end = record_end(sheet, n, *at + 1 + length + 17);
    if (end > n)
        return 4;
    if (!is_known(sheet[*at + 1 + length]))
        return 6;
    if (!add(t, sheet, (uint32_t)*at))
        return 16;
    *at = end;
    return 0;
}

static void prepare(table *t, unsigned count) {
    unsigned slots = 16;
    while (slots < 2 * count && slots < SLOTS)
        slots *= 2;
    t->count = 0;
    t->mask = slots - 1;
    memset(t->head, 0xff, slots * sizeof *t->head);
}

static unsigned count_of(const uint8_t *sheet) {
    return (unsigned)sheet[5] << 8 | sheet[6];
}

/* Reads sheets of the first version up to the last. */
static uint32_t fill_of(table *t, const uint8_t *sheet, size_t n, uint8_t first, uint8_t last) {
    if (n > 65536)
        return 1;
    if (n < 7 || memcmp(sheet, "EAS", 3) != 0)
        return 2;
    if (sheet[3] != 0 || sheet[4] < first || sheet[4] > last)
        return 3;
    unsigned left = count_of(sheet);
    prepare(t, left);
    size_t at = 7;
    for (; left > 0; left--) {
        uint32_t number = check_record(t, sheet, n, &at);
        if (number)
            return number;
    }
    return at == n ? 0 : 4;
}

static uint32_t fill(table *t, const uint8_t *sheet, size_t n) {
    return fill_of(t, sheet, n, 1, 2);
}

uint32_t baseline_check(const uint8_t *sheet, size_t n) {
    table t;
    return fill(&t, sheet, n);
}

static eas_record record_of(const table *t, const uint8_t *sheet, unsigned place) {
    size_t at = t->entry[place].at, length = sheet[at];
    const uint8_t *rest = sheet + at + 1 + length;
    return (eas_record){0, rest[0], number_at(rest + 1), number_at(rest + 9), at + 1, length};
}

/* Reads a spelled name and finds it among the names of an accepted sheet. */
static eas_record look_up(const table *t, const uint8_t *sheet, const uint8_t *spelled, size_t m) {
    uint8_t name[40];
    eas_text read = baseline_read(spelled, m, name);
    if (read.number)
        return (eas_record){.number = read.number};
    unsigned i = place_of(t, sheet, name, read.length, hash_of(name, read.length));
    if (i == NONE)
        return (eas_record){.number = 9};
    return record_of(t, sheet, i);
}

eas_record baseline_find(const uint8_t *sheet, size_t n, const uint8_t *spelled, size_t m) {
    table t;
    uint32_t number = fill(&t, sheet, n);
    if (number)
        return (eas_record){.number = number};
    return look_up(&t, sheet, spelled, m);
}

eas_part baseline_remark(const uint8_t *sheet, size_t n, const uint8_t *spelled, size_t m) {
    eas_record found = baseline_find(sheet, n, spelled, m);
    if (found.number)
        return (eas_part){.number = found.number};
    size_t at = found.start + found.length + 17;
    return sheet[4] == 1 ? (eas_part){0, at, 0} : (eas_part){0, at + 1, sheet[at]};
}

/* Copies an accepted sheet's records without remarks into one of the other version. */
static void copy_records(const uint8_t *sheet, uint8_t *out) {
    size_t at = 7;
    memcpy(out, sheet, 7);
    out[4] = sheet[4] == 1 ? 2 : 1;
    out += 7;
    for (unsigned left = count_of(sheet); left > 0; left--) {
        size_t size = 1u + sheet[at] + 17;
        memcpy(out, sheet + at, size);
        at += size;
        out += size;
        if (sheet[4] == 1)
            *out++ = 0;
        else
            at++;
    }
}

eas_text baseline_forward(const uint8_t *sheet, size_t n, uint8_t *out, size_t room) {
    table t;
    uint32_t number = fill_of(&t, sheet, n, 1, 1);
    size_t length = number ? 0 : n + t.count;
    if (number || length > 65536 || length > room)
        return (eas_text){number ? number : length > 65536 ? 1 : 14, 0};
    copy_records(sheet, out);
    return (eas_text){0, length};
}

/* Whether a record of an accepted sheet of version 2 has a remark. */
static int is_remarked(const table *t, const uint8_t *sheet) {
    for (unsigned i = 0; i < t->count; i++) {
        const uint8_t *record = sheet + t->entry[i].at;
        if (record[1 + record[0] + 17])
            return 1;
    }
    return 0;
}

eas_text baseline_back(const uint8_t *sheet, size_t n, uint8_t *out, size_t room) {
    table t;
    uint32_t number = fill_of(&t, sheet, n, 2, 2);
    if (!number && is_remarked(&t, sheet))
        number = 18;
    size_t length = number ? 0 : n - t.count;
    if (number || length > room)
        return (eas_text){number ? number : 14, 0};
    copy_records(sheet, out);
    return (eas_text){0, length};
}

/* The refusal of a state that is to be added, or 0 with its name read. */
static uint32_t check_typed(const table *t, const uint8_t *sheet, const uint8_t *spelled, size_t m, uint32_t kind,
                            uint8_t name[40], size_t *length) {
    eas_text read = baseline_read(spelled, m, name);
    if (read.number)
        return read.number;
    if (!is_known(kind))
        return 6;
    *length = read.length;
    return place_of(t, sheet, name, read.length, hash_of(name, read.length)) != NONE ? 16 : 0;
}

eas_text baseline_add(const uint8_t *sheet, size_t n, const uint8_t *spelled, size_t m, uint32_t kind, uint64_t first,
                      uint64_t second, uint8_t *out, size_t room) {
    table t;
    uint8_t name[40];
    size_t length = 0;
    uint32_t number = fill_of(&t, sheet, n, 2, 2);
    if (!number)
        number = check_typed(&t, sheet, spelled, m, kind, name, &length);
    size_t grown = n + 19 + length;
    if (number || grown > 65536 || grown > room)
        return (eas_text){number ? number : grown > 65536 ? 19 : 14, 0};
    memcpy(out, sheet, n);
    return (eas_text){0, append_record(out, n, name, length, (uint8_t)kind, first, second)};
}

static int stands_for_itself(uint8_t c) {
    return (c >= 'a' && c <= 'z') || (c >= 'A' && c <= 'Z') || (c >= '0' && c <= '9') || c == '-' || c == '.' ||
           c == '_' || c == '~';
}

static int digit_of(uint8_t c) {
    return c >= '0' && c <= '9'   ? c - '0'
           : c >= 'A' && c <= 'F' ? c - 'A' + 10
           : c >= 'a' && c <= 'f' ? c - 'a' + 10
                                  : -1;
}

eas_text baseline_read(const uint8_t *spelled, size_t n, uint8_t name[40]) {
    uint8_t decoded[40];
    size_t length = 0;
    for (size_t i = 0; i < n; i++) {
        int byte = spelled[i];
        if (byte == '%') {
            if (n - i < 3 || digit_of(spelled[i + 1]) < 0 || digit_of(spelled[i + 2]) < 0)
                return (eas_text){7, 0};
            byte = digit_of(spelled[i + 1]) * 16 + digit_of(spelled[i + 2]);
            i += 2;
        } else if (!stands_for_itself(spelled[i])) {
            return (eas_text){7, 0};
        }
        if (length < sizeof decoded)
            decoded[length] = (uint8_t)byte;
        length++;
    }
    if (length == 0 || length > sizeof decoded)
        return (eas_text){8, 0};
    memcpy(name, decoded, length);
    return (eas_text){0, length};
}

eas_text baseline_spell(const uint8_t *name, size_t n, uint8_t *out, size_t room) {
    static const char digits[] = "0123456789ABCDEF";
    uint8_t text[120];
    size_t length = 0;
    if (n == 0 || n > 40)
        return (eas_text){8, 0};
    for (size_t i = 0; i < n; i++) {
        if (stands_for_itself(name[i])) {
            text[length++] = name[i];
            continue;
        }
        text[length++] = '%';
        text[length++] = (uint8_t)digits[name[i] >> 4];
        text[length++] = (uint8_t)digits[name[i] & 15];
    }
    if (length > room)
        return (eas_text){14, 0};
    memcpy(out, text, length);
    return (eas_text){0, length};
}

/* The temperature of a band's fit in microkelvin; sets the refusal where the fit is beyond its limits. */
static double fitted(int band, double y, double z, uint32_t *number) {
    double fit = tgas1_fit(tgas1_parts(band, y, z));
    if (fit < 0 || fit > (double)MOST_FIT / 1e10)
        *number = 13;
    return (double)STANDARD_TEMPERATURE * pow(10, fit);
}

static baseline_answer temperature(uint64_t pressure, uint64_t density) {
    double x = log10((double)pressure / (double)STANDARD_PRESSURE),
           y = log10((double)density / (double)STANDARD_DENSITY);
    baseline_answer a = {0, 'T', y, x - y, 0};
    tgas_strip s;
    if (a.z < MILLIONTHS(LEAST_Z) || a.z > MILLIONTHS(MOST_Z)) {
        a.number = 12;
    } else if (a.z <= MILLIONTHS(PERFECT_Z)) {
        a.value = (double)pressure * 1e13 / (28706.0 * (double)density);
    } else if (!tgas_strip_at(y, &s)) {
        a.value = fitted(tgas_band(y), y, a.z, &a.number);
    } else {
        double low = fitted(s.below, s.low, a.z, &a.number), high = fitted(s.below + 1, s.high, a.z, &a.number);
        a.value = tgas_line(&s, y, low, high);
    }
    return a;
}

/* Inside a strip the band above it has the smaller limit. */
static int judging_band(double y) {
    tgas_strip s;
    return tgas_strip_at(y, &s) ? s.below + 1 : tgas_band(y);
}

static baseline_answer entropy(uint64_t energy, uint64_t density) {
    double y = log10((double)density / (double)STANDARD_DENSITY), z = log10((double)energy / (double)STANDARD_ENERGY);
    baseline_answer a = {0, 'S', y, z, 0};
    if (z <= MILLIONTHS(entropy_most_z[judging_band(y)]))
        a.value = 1e4 * tgas2_joined(y, z);
    else
        a.number = 12;
    return a;
}

/* Gamma less one by a band's fit; sets the refusal where gamma is beyond its limits. */
static double less_one(int band, double y, double z, uint32_t *number) {
    double gamma = tgas1_gamma(tgas1_gamma_parts(band, y, z));
    if (gamma <= (double)BELOW_GAMMA / 1e10 || gamma >= (double)ABOVE_GAMMA / 1e10)
        *number = 17;
    return gamma - 1;
}

/* Whether a band's fit has a minus transition with an exponent near 0. */
static int near_zero(int band, double y, double z) {
    tgas_parts parts = tgas1_gamma_parts(band, y, z);
    return parts.weighted < 0 && fabs(parts.exponent) < (double)LEAST_MINUS_EXPONENT / 1e10;
}

static baseline_answer pressure(uint64_t energy, uint64_t density) {
    double y = log10((double)density / (double)STANDARD_DENSITY), z = log10((double)energy / (double)STANDARD_ENERGY);
    double product = (double)density * (double)energy * 1e-8;
    baseline_answer a = {0, 'P', y, z, 0};
    tgas_strip s = {y, y, tgas_band(y)};
    int joined = tgas_strip_at(y, &s), above = s.below + joined;
    if (z > MILLIONTHS(pressure_most_z(above)) || near_zero(s.below, s.low, z) ||
        (joined && near_zero(above, s.high, z))) {
        a.number = 17;
        return a;
    }
    double low = less_one(s.below, s.low, z, &a.number);
    a.value = product * (joined ? tgas_line(&s, y, low, less_one(above, s.high, z, &a.number)) : low);
    return a;
}

static baseline_answer evaluate(uint8_t kind, uint64_t first, uint64_t second) {
    if (!is_known(kind))
        return (baseline_answer){.number = 6};
    if (kind == 1 ? first < LEAST_PRESSURE || first > MOST_PRESSURE : first < LEAST_ENERGY || first > MOST_ENERGY)
        return (baseline_answer){.number = 10};
    if (second < LEAST_DENSITY || second > MOST_DENSITY)
        return (baseline_answer){.number = 11};
    return kind == 1 ? temperature(first, second) : kind == 2 ? entropy(first, second) : pressure(first, second);
}

static baseline_answer answer_of(eas_record record) {
    if (record.number)
        return (baseline_answer){.number = record.number};
    return evaluate((uint8_t)record.kind, record.first, record.second);
}

baseline_answer baseline_search(const uint8_t *sheet, size_t n, const uint8_t *spelled, size_t m) {
    return answer_of(baseline_find(sheet, n, spelled, m));
}

/* The line of a name, which is read already; of none where that has no bytes. */
static size_t line_of(const uint8_t *name, size_t length, baseline_answer a, char out[192]) {
    uint8_t text[121] = "?";
    if (length > 0)
        text[baseline_spell(name, length, text, 120).length] = 0;
    if (a.number)
        return (size_t)snprintf(out, 192, "%s ! %u\n", (char *)text, a.number);
    return (size_t)snprintf(out, 192, "%s %c %lld %lld %lld\n", (char *)text, a.letter, llrint(1e6 * a.y),
                            llrint(1e6 * a.z), (long long)floor(a.value));
}

static size_t write_line(const uint8_t *spelled, size_t m, baseline_answer a, char out[192]) {
    uint8_t name[40];
    return line_of(name, baseline_read(spelled, m, name).length, a, out);
}

size_t baseline_line(const uint8_t *sheet, size_t n, const uint8_t *spelled, size_t m, char out[192]) {
    return write_line(spelled, m, baseline_search(sheet, n, spelled, m), out);
}

eas_begun baseline_begin(const uint8_t *sheet, size_t n) {
    table t;
    uint32_t number = fill(&t, sheet, n);
    return (eas_begun){number, {0, number ? 0 : t.count}};
}

eas_step baseline_next(const uint8_t *sheet, size_t n, eas_walk walk, uint8_t *out, size_t room) {
    table t;
    char line[192];
    uint32_t number = fill(&t, sheet, n);
    if (number || walk.given >= walk.count || walk.given >= t.count)
        return (eas_step){number, 0, walk};
    eas_record next = record_of(&t, sheet, walk.given);
    size_t length = line_of(sheet + next.start, next.length, answer_of(next), line);
    if (length > room)
        return (eas_step){14, 0, walk};
    memcpy(out, line, length);
    return (eas_step){0, length, {walk.given + 1, walk.count}};
}

void baseline_listing(const uint8_t *sheet, size_t n, const uint8_t *names, size_t length, FILE *out) {
    table t;
    char line[192];
    uint32_t number = fill(&t, sheet, n);
    if (number || length > 65536) {
        fprintf(out, number ? "sheet ! %u\n" : "list ! 15\n", number);
        return;
    }
    for (size_t at = 0; at < length;) {
        const uint8_t *name = names + at, *end = memchr(name, '\n', length - at);
        size_t m = end ? (size_t)(end - name) : length - at;
        size_t written = write_line(name, m, answer_of(look_up(&t, sheet, name, m)), line);
        fwrite(line, 1, written, out);
        at += m + 1;
    }
}
