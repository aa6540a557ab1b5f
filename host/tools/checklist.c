/* checklist [SHEET]...: the field engineer's five checks of an installed calculator, on each given sheet and on the
 * shipped samples. docs/CHECKLIST.md says what each check is and what it catches. */
#include <stdlib.h>
#include <string.h>
#include <time.h>

#include "checklist_report.h"
#include "checklist_shown.h"
#include "common.h"
#include "options.h"

static const char help[] = "Makes the field engineer's five checks on each SHEET and on the shipped samples.\n"
                           "Every name is asked for as a user does: by search, as a plot mark, as a listing line,\n"
                           "in a run list of all names and by a walk over the sheet. What is shown is compared with\n"
                           "an exact calculation that shares no code with the library, and with what the same sheet\n"
                           "shows without its remarks, converted to its other version, with states added during the\n"
                           "walk and in reverse order. Every record, by its name and by its row, and every remark is\n"
                           "compared with the sheet's bytes. The status is 0 where nothing failed, else 1; with\n"
                           "--strict a check for which a SHEET has no state is no pass either. The samples are always\n"
                           "judged so.\n\n"
                           "With --shown, FILE is what your own program showed for the one SHEET, a line a state:\n"
                           "name,value,unit, or a name alone where it showed nothing. Each line is judged by the\n"
                           "exact calculation.";

static const char *const samples[] = {
    "sample", "slash-and-space", "digits-only", "edges-and-transitions", "energy-and-pressure", "with-remarks"};

enum { SAMPLE_COUNT = sizeof samples / sizeof *samples };

/* Judges sheets as one group; gives whether they passed. */
static bool run_group(const char *title, report r, const char *const *paths, int count) {
    tally tallies[TALLIES] = {0};
    printf("%s\n", title);
    for (int i = 0; i < count; i++) {
        char reason[REFUSAL_ROOM];
        const asked_sheet *sheet = ask_sheet(paths[i], reason);
        if (sheet)
            judge_sheet(sheet, tallies);
        else
            print_unread("sheet", paths[i], reason);
        r.unread += !sheet;
    }
    if (r.unread < count)
        return print_checks(tallies, &r);
    printf("    None of the five checks was made.\n\n");
    return false;
}

static bool run_samples(const char *folder) {
    static char paths[SAMPLE_COUNT][4096];
    const char *list[SAMPLE_COUNT];
    for (int i = 0; i < SAMPLE_COUNT; i++) {
        snprintf(paths[i], sizeof paths[i], "%s/%s.eas", folder, samples[i]);
        list[i] = paths[i];
    }
    return run_group("Shipped samples", (report){"the samples", true, 0}, list, SAMPLE_COUNT);
}

static bool run_sheet(const char *path, bool strict) {
    char title[4096];
    snprintf(title, sizeof title, "Given sheet %s", input_name(path));
    return run_group(title, (report){"this sheet", strict, 0}, &path, 1);
}

/* The library's version and the day, so that a kept report says what it is of. */
static void print_head(void) {
    char day[32];
    time_t now = time(NULL);
    struct tm parts;
    strftime(day, sizeof day, "%Y-%m-%d", localtime_r(&now, &parts));
    printf("Checklist of the library airstate %s, %s\n\n", EAS_VERSION, day);
}

static void print_ways(void) {
    printf("Each state is asked for by search, as a plot mark, as a listing line, in a run list and by a walk;\n"
           "its record, by its name and by its row, and its remark must be what the sheet's bytes say.\n\n");
}

static const char *folder, *shown_file, *strict;

static const tool_option options[] = {
    {'s', "samples", "FOLDER", "where the shipped samples are", &folder},
    {'S', "strict", NULL, "no pass where a SHEET has no state for a check", &strict},
    {'f', "shown", "FILE", "judge what your own program showed for SHEET", &shown_file},
    {0},
};

/* Judges the given sheets and the samples; gives whether all passed. */
static bool run_all(char **paths, int count) {
    bool passed = true;
    print_ways();
    for (int i = 0; i < count; i++)
        passed = run_sheet(paths[i], strict) && passed;
    if (count == 0)
        printf("No sheet was given: this is about the installed calculator alone.\n\n");
    return run_samples(folder) && passed;
}

int main(int argc, char **argv) {
    const tool checklist = {"[--strict] [SHEET]...\n--shown=FILE SHEET", help, options};
    folder = samples_folder();
    int first = read_options(&checklist, argc, argv);
    bool passed;
    if (shown_file && argc - first != 1)
        misuse("--shown needs one sheet");
    print_head();
    passed = shown_file ? judge_file(shown_file, argv[first]) : run_all(argv + first, argc - first);
    return close_output(stdout, NULL) || !passed ? REFUSED : DONE;
}
