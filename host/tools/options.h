/* The options of a tool, read by getopt_long, and its messages. Every tool has --help and --version. */
#ifndef OPTIONS_H
#define OPTIONS_H

/* Exit statuses. */
enum { DONE = 0, REFUSED = 1, MISUSED = 2 };

/* One option of a tool. `to` gets its value, or "" where it takes none. */
typedef struct {
    char letter;
    const char *name, *value; /* value: how the help calls it, null for an option without one */
    const char *help;
    const char **to;
} tool_option;

/* What a tool says of itself. */
typedef struct {
    const char *usage;          /* a way to call it a line, each without the tool's name */
    const char *help;           /* what it does */
    const tool_option *options; /* ends with one without a name; null for none */
} tool;

/* Reads the options; the operands are argv[result] and on. Ends the program after --help and --version and, with
 * MISUSED, at an option that the tool does not have. */
int read_options(const tool *t, int argc, char **argv);

/* Tells a misuse and ends the program with MISUSED. */
_Noreturn void misuse(const char *format, ...) __attribute__((format(printf, 1, 2)));

/* Writes the tool's name and a message to standard error. Gives REFUSED. */
int refuse(const char *format, ...) __attribute__((format(printf, 1, 2)));

#endif
