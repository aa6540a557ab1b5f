/* example SHEET [NAME]...: a host program. It loads a sheet, searches each spelled name, asks for its remark, its plot
 * mark and its listing line, and prints what it got: a remark's control bytes, which may steer a terminal, as ?.
 * Without a name it walks over the sheet and prints every line. */
#include <ctype.h>
#include <errno.h>
#include <stdio.h>
#include <string.h>

#include <airstate.h>

#if !EAS_VERSION_AT_LEAST(2, 6, 0)
#error "this program needs airstate 2.6.0 or later"
#endif

static uint8_t sheet[EAS_SHEET_ROOM + 1]; /* one byte more than the largest sheet, so that a longer file is refused */

static void print_value(uint32_t letter, int64_t value) {
    if (letter == 'T')
        printf("temperature %.6f K", (double)value / 1e6);
    else if (letter == 'S')
        printf("entropy %.4f J/(kg K)", (double)value / 1e4);
    else
        printf("pressure %.6f Pa", (double)value / 1e6);
}

static void print_fit(const char *which, uint32_t letter, eas_edge e) {
    const char *fit = letter == 'T' ? "G" : "gamma";
    printf("  %s: %s %.6f, W %.6f%s", which, fit, (double)e.fit / 1e10, (double)e.weight / 1e10, e.value ? ", " : "");
    if (e.value)
        print_value(letter, e.value);
    printf("\n");
}

static void print_search(eas_answer a) {
    printf("  search: ");
    if (a.number)
        printf("refusal %u: %s", a.number, eas_reason(a.number));
    else
        print_value(a.letter, a.value);
    printf("\n");
    if (a.carries & EAS_CARRIES_LOGS)
        printf("  logarithms: Y %.6f, Z %.6f\n", (double)a.y / 1e6, (double)a.z / 1e6);
    if (a.carries & EAS_CARRIES_LOW)
        print_fit(a.carries & EAS_CARRIES_HIGH ? "fit at the low edge" : "fit", a.letter, a.low);
    if (a.carries & EAS_CARRIES_HIGH)
        print_fit("fit at the high edge", a.letter, a.high);
}

static void print_mark(eas_mark mark) {
    if (mark.blank)
        printf("  mark: blank %u\n", mark.blank);
    else
        printf("  mark: across %.0f, up %.0f\n", mark.point.across, mark.point.up);
}

static void print_remark(eas_part remark) {
    for (size_t i = 0; i < remark.length; i++)
        printf("%s%c", i > 0 ? "" : "  remark: ", iscntrl(sheet[remark.start + i]) ? '?' : sheet[remark.start + i]);
    printf("%s", remark.length > 0 ? "\n" : "");
}

static void print_state(size_t n, const char *spelled) {
    const uint8_t *name = (const uint8_t *)spelled;
    size_t m = strlen(spelled);
    uint8_t line[EAS_LINE_ROOM];
    eas_text text = eas_line(sheet, n, name, m, line, sizeof line);
    printf("name %s\n", spelled);
    print_remark(eas_remark(sheet, n, name, m));
    print_search(eas_search(sheet, n, name, m));
    print_mark(eas_plot(sheet, n, name, m));
    printf("  line: %.*s", (int)text.length, (const char *)line);
}

static void print_lines(size_t n) {
    uint8_t line[EAS_LINE_ROOM];
    eas_step step = {.walk = eas_begin(sheet, n).walk};
    while ((step = eas_next(sheet, n, step.walk, line, sizeof line)).length > 0)
        printf("%.*s", (int)step.length, (const char *)line);
}

/* Reads a file into the sheet; 0 where it cannot be read. */
static int load(const char *path, size_t *n) {
    FILE *file = fopen(path, "rb");
    if (!file)
        return 0;
    *n = fread(sheet, 1, sizeof sheet, file);
    int whole = !ferror(file);
    fclose(file);
    return whole;
}

int main(int argc, char **argv) {
    size_t n;
    if (argc < 2) {
        fprintf(stderr, "usage: example SHEET [NAME]...\n");
        return 2;
    }
    if (!load(argv[1], &n)) {
        fprintf(stderr, "example: %s: %s\n", argv[1], strerror(errno));
        return 1;
    }
    uint32_t refused = eas_check(sheet, n);
    printf("sheet: %u, %s\n", refused, eas_reason(refused));
    for (int i = 2; i < argc; i++)
        print_state(n, argv[i]);
    if (argc == 2)
        print_lines(n);
    return refused != 0;
}
