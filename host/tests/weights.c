/* The proved weights of both transitions, swept over exponents of both signs and compared with the reference.
 *
 * weights PROGRAM. The program is crates/vectors: a line `plus FROM STEP COUNT LABEL`, or with minus, has it write the
 * weights at q and -q for COUNT exponents q. Of a minus transition only q from 1.9 on is asked; the program passes over
 * the others. The error of a weight is its largest distance from 10^10 times the ideal weight over the reference's
 * numbers of terms, by the far end of the enclosure. */
#include <fcntl.h>
#include <inttypes.h>
#include <math.h>
#include <stdio.h>
#include <stdlib.h>
#include <sys/wait.h>
#include <unistd.h>

#include "reference/weight.h"
#include "tally.h"

static const uint64_t LEAST_MINUS = 19000000000;

typedef struct {
    uint64_t from, step, count;
} sweep;

/* The whole way and beyond 24; every unit next to 0, 1.9 and 24; next to every sixteenth, where another entry of the
 * tables is taken; far out, and the largest exponent; the weights of a plus and of a minus transition that are known as
 * the farthest from the ideal ones. */
static const sweep sweeps[] = {
    {0, 2000003, 121000},        {0, 1, 1000},
    {18999999500, 1, 1000},      {239999999500, 1, 1000},
    {624999998, 625000000, 388}, {624999999, 625000000, 388},
    {625000000, 625000000, 388}, {625000001, 625000000, 388},
    {625000002, 625000000, 388}, {300000000000, 900000000000000007, 10},
    {INT64_MAX, 1, 1},           {9438930, 1, 1},
    {19376048300, 1, 1},
};
enum { SWEEPS = sizeof sweeps / sizeof sweeps[0] };

/* What was seen, by transition and sign. */
typedef struct {
    uint64_t count;
    double largest;
    int64_t where;
} group;

static group groups[2][2];
static term_bounds ideal;

/* Runs the program on every sweep of both transitions; what it writes is read from the result. */
static FILE *run(const char *program, pid_t *child) {
    FILE *input = tmpfile();
    int ends[2];
    if (input == NULL || pipe2(ends, O_CLOEXEC) != 0)
        tally_stop("a pipe to the program");
    for (int i = 0; i < 2 * SWEEPS; i++) {
        const sweep *s = &sweeps[i % SWEEPS];
        fprintf(input, "%s %" PRIu64 " %" PRIu64 " %" PRIu64 " s\n", i < SWEEPS ? "plus" : "minus", s->from, s->step,
                s->count);
    }
    rewind(input);
    *child = fork();
    if (*child == 0) {
        if (dup2(fileno(input), STDIN_FILENO) >= 0 && dup2(ends[1], STDOUT_FILENO) >= 0)
            execl(program, program, (char *)NULL);
        _exit(127);
    }
    fclose(input);
    close(ends[1]);
    FILE *output = fdopen(ends[0], "r");
    if (*child < 0 || output == NULL)
        tally_stop(program);
    return output;
}

static double error_of(int64_t weight, transition t) {
    double largest = 0;
    mpfr_t distance;
    mpfr_init2(distance, 64);
    weights_of(&ideal, t, FIRST_WEIGHT_PRECISION);
    for (int i = 0; i < TERM_COUNTS; i++) {
        mpfr_sub_si(distance, ideal.high[i], weight, MPFR_RNDU);
        largest = fmax(largest, mpfr_get_d(distance, MPFR_RNDU));
        mpfr_si_sub(distance, weight, ideal.low[i], MPFR_RNDU);
        largest = fmax(largest, mpfr_get_d(distance, MPFR_RNDU));
    }
    mpfr_clear(distance);
    return largest;
}

static void judge(bool minus, int64_t q, int64_t weight) {
    transition t = {minus, q, EXPONENT_DECIMALS};
    group *g = &groups[minus][q < 0];
    double error = error_of(weight, t);
    tally_check(error <= WEIGHT_TOLERANCE && weight_allowed(weight, t), "weight %" PRId64 " at %" PRId64 ", %.3f off",
                weight, q, error);
    g->count++;
    if (error > g->largest) {
        g->largest = error;
        g->where = q;
    }
}

static bool next_is(FILE *from, char wanted) {
    return fgetc(from) == wanted;
}

/* A space and a number. */
static bool next_weight(FILE *from, int64_t *weight) {
    char digits[24], *end;
    if (!next_is(from, ' ') || fscanf(from, "%23[-0-9]", digits) != 1)
        return false;
    *weight = strtoll(digits, &end, 10);
    return *end == 0;
}

/* A line of the program, which has the label `s`; false where it is not whole. */
static bool judge_sweep(FILE *from, bool minus, const sweep *s) {
    bool whole = next_is(from, 's') && next_is(from, ':');
    for (uint64_t i = 0; whole && i < s->count; i++) {
        int64_t q = (int64_t)(s->from + i * s->step), above, below;
        if (minus && (uint64_t)q < LEAST_MINUS)
            continue;
        tally_case(minus ? "minus" : "plus", (uint64_t)q);
        whole = next_weight(from, &above) && next_weight(from, &below);
        if (whole) {
            judge(minus, q, above);
            judge(minus, -q, below);
        }
    }
    return whole && next_is(from, '\n');
}

static void print_groups(void) {
    printf("  %-10s %-8s %9s %14s %21s\n", "transition", "exponent", "weights", "largest error", "at");
    for (int i = 0; i < 4; i++) {
        const group *g = &groups[i / 2][i % 2];
        printf("  %-10s %-8s %9" PRIu64 " %14.3f %21" PRId64 "\n", i / 2 ? "minus" : "plus",
               i % 2 ? "below 0" : "above 0", g->count, g->largest, g->where);
    }
}

int main(int count, char **arguments) {
    if (count != 2) {
        fprintf(stderr, "weights PROGRAM\n");
        return 2;
    }
    const char *program = arguments[1];
    if (access(program, X_OK) != 0)
        tally_stop(program);
    bool whole = true;
    pid_t child;
    int status;
    tally_start("weights", 0);
    bounds_init(&ideal);
    FILE *output = run(program, &child);
    for (int i = 0; whole && i < 2 * SWEEPS; i++) {
        const sweep *s = &sweeps[i % SWEEPS];
        whole = tally_check(judge_sweep(output, i >= SWEEPS, s),
                            "no whole line for the %" PRIu64 " exponents from %" PRIu64 " on", s->count, s->from);
    }
    if (whole)
        tally_check(fgetc(output) == EOF, "more lines than were asked");
    fclose(output);
    tally_check(waitpid(child, &status, 0) == child && status == 0, "%s did not end well", program);
    bounds_clear(&ideal);
    print_groups();
    return tally_end();
}
