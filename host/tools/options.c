#include "options.h"

#include <errno.h>
#include <getopt.h>
#include <stdarg.h>
#include <stdio.h>
#include <stdlib.h>
#include <string.h>

#include "airstate.h"

enum { OPTIONS_MOST = 16, HELP = 'h', VERSION = 'V' };

static void message(const char *format, va_list values) {
    fflush(stdout);
    fprintf(stderr, "%s: ", program_invocation_short_name);
    vfprintf(stderr, format, values);
    fputc('\n', stderr);
}

int refuse(const char *format, ...) {
    va_list values;
    va_start(values, format);
    message(format, values);
    va_end(values);
    return REFUSED;
}

_Noreturn void misuse(const char *format, ...) {
    va_list values;
    va_start(values, format);
    message(format, values);
    va_end(values);
    fprintf(stderr, "Try '%s --help'.\n", program_invocation_short_name);
    exit(MISUSED);
}

static size_t count_options(const tool *t) {
    size_t count = 0;
    while (t->options && t->options[count].name)
        count++;
    return count;
}

/* Each line of the usage with the tool's name in front. */
static void print_usage(const char *usage) {
    const char *lead = "usage:";
    while (*usage) {
        int length = (int)strcspn(usage, "\n");
        printf("%s %s %.*s\n", lead, program_invocation_short_name, length, usage);
        usage += length + (usage[length] == '\n');
        lead = "      ";
    }
}

static void print_option(char letter, const char *name, const char *value, const char *help) {
    char words[64];
    snprintf(words, sizeof words, "-%c, --%s%s%s", letter, name, value ? "=" : "", value ? value : "");
    printf("  %-24s %s\n", words, help);
}

static _Noreturn void print_help(const tool *t) {
    print_usage(t->usage);
    printf("\n%s\n\n", t->help);
    for (size_t i = 0; i < count_options(t); i++)
        print_option(t->options[i].letter, t->options[i].name, t->options[i].value, t->options[i].help);
    print_option(HELP, "help", NULL, "print this and end");
    print_option(VERSION, "version", NULL, "print the version and end");
    printf("\nExit status: 0 done, 1 an input or output was refused, 2 wrong use.\n");
    exit(fflush(stdout) == 0 ? DONE : REFUSED);
}

static _Noreturn void print_version(void) {
    printf("%s (airstate) %s\n", program_invocation_short_name, EAS_VERSION);
    exit(fflush(stdout) == 0 ? DONE : REFUSED);
}

/* Keeps the value of the tool's own option with this letter. */
static void keep(const tool *t, int letter) {
    for (size_t i = 0; i < count_options(t); i++)
        if (t->options[i].letter == letter)
            *t->options[i].to = t->options[i].value ? optarg : "";
}

int read_options(const tool *t, int argc, char **argv) {
    struct option names[OPTIONS_MOST + 3] = {{"help", no_argument, NULL, HELP},
                                             {"version", no_argument, NULL, VERSION}};
    char letters[2 * OPTIONS_MOST + 3] = {HELP, VERSION};
    size_t count = count_options(t), used = 2;
    for (size_t i = 0; i < count && i < OPTIONS_MOST; i++) {
        const tool_option *o = &t->options[i];
        names[i + 2] = (struct option){o->name, o->value ? required_argument : no_argument, NULL, o->letter};
        letters[used++] = o->letter;
        if (o->value)
            letters[used++] = ':';
    }
    argv[0] = program_invocation_short_name; /* getopt_long's messages begin with it */
    for (int letter; (letter = getopt_long(argc, argv, letters, names, NULL)) != -1;) {
        if (letter == HELP)
            print_help(t);
        if (letter == VERSION)
            print_version();
        if (letter == '?') {
            fprintf(stderr, "Try '%s --help'.\n", program_invocation_short_name);
            exit(MISUSED);
        }
        keep(t, letter);
    }
    return optind;
}
