/* Runs the listing program on sheets and name lists and compares its output byte for byte; standard error is told of a
 * missing sheet, and of nothing else.
 *
 * listing_test PROGRAM [seed [count]]. The program runs in an empty folder that holds sheet.eas or nothing. */
#include <fcntl.h>
#include <stdio.h>
#include <stdlib.h>
#include <string.h>
#include <sys/wait.h>
#include <unistd.h>

#include "lists.h"
#include "tally.h"

enum { LISTING_PART = 55 };

static const char *program;
static tried_sheet sheet;
static name_list list;
static parsed_sheet parsed;
static listing_text expected, got, told;

static void write_file(const char *name, const uint8_t *bytes, size_t n) {
    FILE *file = fopen(name, "wb");
    if (file == NULL || fwrite(bytes, 1, n, file) != n || fclose(file) != 0)
        tally_stop(name);
}

static void read_file(const char *name, listing_text *text) {
    FILE *file = fopen(name, "rb");
    if (file == NULL)
        tally_stop(name);
    text->n = fread(text->bytes, 1, sizeof text->bytes, file);
    fclose(file);
}

static void redirect(const char *name, int flags, int to) {
    int from = open(name, flags, 0600);
    if (from < 0 || dup2(from, to) < 0 || close(from) != 0)
        _exit(126);
}

/* Runs the program with the list as its input; true where it ends by itself. */
static bool run(void) {
    pid_t child = fork();
    if (child < 0)
        tally_stop("fork");
    if (child == 0) {
        redirect("names", O_RDONLY, STDIN_FILENO);
        redirect("lines", O_WRONLY | O_CREAT | O_TRUNC, STDOUT_FILENO);
        redirect("told", O_WRONLY | O_CREAT | O_TRUNC, STDERR_FILENO);
        execl(program, program, (char *)NULL);
        _exit(127);
    }
    int status;
    if (waitpid(child, &status, 0) != child)
        tally_stop("waitpid");
    read_file("lines", &got);
    read_file("told", &told);
    return WIFEXITED(status) && WEXITSTATUS(status) < 126;
}

static void compare(bool has_file) {
    if (!has_file)
        sheet.n = 0;
    sheet_parse(&parsed, sheet.bytes, sheet.n);
    work_out_listing(&expected, &parsed, &sheet, &list);
    unlink("sheet.eas");
    if (has_file)
        write_file("sheet.eas", sheet.bytes, sheet.n);
    write_file("names", list.bytes, list.n);
    bool ended = run();
    tally_check((told.n == 0) == has_file, "standard error: %.*s", (int)told.n, told.bytes);
    bool same = ended && got.n == expected.n && memcmp(got.bytes, expected.bytes, got.n) == 0;
    if (tally_check(same, "%s, %zu bytes instead of %zu", ended ? "output" : "no normal end", got.n, expected.n))
        return;
    tally_hex("sheet", sheet.bytes, sheet.n);
    tally_hex("list", list.bytes, list.n);
    tally_note("expected: %.*s", (int)(expected.n < 2000 ? expected.n : 2000), expected.bytes);
    tally_note("got: %.*s", (int)(got.n < 2000 ? got.n : 2000), got.bytes);
}

/* Lists at and beyond 65,536 bytes, of one long line and of short ones, with good, bad and missing sheets. */
static void compare_edges(void) {
    static const char heads[][8] = {"EAS\0\1\0\0", "EAS\0\3\0\0", "EAS\0\2\0\0"};
    for (int i = 0; i < 4 * LIST_EDGES; i++) {
        tally_case("edge listing", (uint64_t)i);
        sheet.n = 7;
        memcpy(sheet.bytes, heads[i % 4 % 3], 7);
        edge_list(&list, i / 4);
        compare(i % 4 != 3);
    }
    list.n = 0;
    compare(true);
    compare(false);
}

int main(int count, char **arguments) {
    char folder[] = "/tmp/listing_test.XXXXXX";
    if (count < 2) {
        fprintf(stderr, "listing_test PROGRAM [seed [count]]\n");
        return 2;
    }
    program = realpath(arguments[1], NULL);
    uint64_t seed = count > 2 ? strtoull(arguments[2], NULL, 10) : 20260101;
    uint64_t cases = count > 3 ? strtoull(arguments[3], NULL, 10) : 2000;
    if (program == NULL || mkdtemp(folder) == NULL || chdir(folder) != 0)
        tally_stop(arguments[1]);
    tally_start("listing_test", seed);
    compare_edges();
    for (uint64_t i = 0; i < cases; i++) {
        random_source r = random_case(seed, LISTING_PART, i);
        tally_case("random listing", i);
        random_sheet(&sheet, &r, i % 500 == 0);
        sheet_parse(&parsed, sheet.bytes, sheet.n);
        random_list(&list, &r, &parsed, &sheet);
        compare(random_below(&r, 16) != 0);
    }
    unlink("sheet.eas");
    unlink("names");
    unlink("lines");
    unlink("told");
    if (chdir("/") != 0 || rmdir(folder) != 0)
        tally_stop(folder);
    return tally_end();
}
