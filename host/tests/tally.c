#include "tally.h"

#include <inttypes.h>
#include <signal.h>
#include <stdarg.h>
#include <stdio.h>
#include <stdlib.h>
#include <string.h>
#include <unistd.h>

enum { SHOWN_FAILURES = 20 };

static const char *program;
static const char *part = "start";
static uint64_t seed, case_index, checks, failures;

/* Below a signal handler nothing may be called but write and the like: texts go out as they are, numbers digit by
 * digit. */
static void tell(const char *text, size_t n) {
    if (write(STDERR_FILENO, text, n) < 0)
        _exit(3);
}

static void tell_text(const char *text) {
    tell(text, strlen(text));
}

static void tell_number(uint64_t number) {
    char digits[20];
    size_t at = sizeof digits;
    do {
        digits[--at] = (char)('0' + number % 10);
        number /= 10;
    } while (number > 0);
    tell(digits + at, sizeof digits - at);
}

static void on_fault(int signal_number) {
    tell_text(program);
    tell_text(": signal ");
    tell_number((uint64_t)signal_number);
    tell_text(", seed ");
    tell_number(seed);
    tell_text(", ");
    tell_text(part);
    tell_text(" case ");
    tell_number(case_index);
    tell_text("\n");
    _exit(2);
}

void tally_start(const char *name, uint64_t from) {
    program = name;
    seed = from;
    struct sigaction action = {.sa_handler = on_fault};
    sigaction(SIGSEGV, &action, NULL);
    sigaction(SIGBUS, &action, NULL);
    sigaction(SIGILL, &action, NULL);
    sigaction(SIGFPE, &action, NULL);
    sigaction(SIGABRT, &action, NULL);
    printf("%s: seed %" PRIu64 "\n", program, seed);
}

void tally_case(const char *name, uint64_t index) {
    part = name;
    case_index = index;
}

bool tally_check(bool held, const char *format, ...) {
    checks++;
    if (held)
        return true;
    failures++;
    if (failures <= SHOWN_FAILURES) {
        va_list values;
        printf("FAILURE %s, seed %" PRIu64 ", %s case %" PRIu64 ": ", program, seed, part, case_index);
        va_start(values, format);
        vprintf(format, values);
        va_end(values);
        printf("\n");
    }
    return false;
}

void tally_note(const char *format, ...) {
    if (failures > SHOWN_FAILURES)
        return;
    va_list values;
    printf("    ");
    va_start(values, format);
    vprintf(format, values);
    va_end(values);
    printf("\n");
}

void tally_hex(const char *what, const uint8_t *bytes, size_t n) {
    if (failures > SHOWN_FAILURES)
        return;
    printf("    %s, %zu bytes: ", what, n);
    for (size_t i = 0; i < n; i++)
        printf("%02x", bytes[i]);
    printf("\n");
}

void tally_answer(const char *what, const eas_answer *a) {
    tally_note("%s: number %" PRIu32 " letter %" PRIu32 " carries %" PRIu32 " x %" PRId64 " y %" PRId64 " z %" PRId64
               " value %" PRId64 " low %" PRId64 " %" PRId64 " %" PRId64 " high %" PRId64 " %" PRId64 " %" PRId64,
               what, a->number, a->letter, a->carries, a->x, a->y, a->z, a->value, a->low.fit, a->low.weight,
               a->low.value, a->high.fit, a->high.weight, a->high.value);
}

void tally_stop(const char *what) {
    perror(what);
    exit(2);
}

int tally_end(void) {
    printf("%s: %" PRIu64 " checks, %" PRIu64 " failures\n", program, checks, failures);
    return failures == 0 ? 0 : 1;
}
