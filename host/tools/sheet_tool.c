/* sheet_tool: a text of states to a sheet and back, and what is done with a sheet. */
#include <string.h>

#include "add.h"
#include "convert.h"
#include "eval.h"
#include "list.h"
#include "options.h"
#include "pack.h"
#include "table.h"

static const char *output, *si, *spelled, *form, *names, *rounded, *split, *version_2, *name, *remark, *go_forward;

static const tool_option options[] = {
    {'o', "output", "FILE", "write to FILE instead of standard output", &output},
    {'s', "si", NULL, "unpack: write pressure_Pa, energy_J_kg and density_kg_m3", &si},
    {'p', "spelled", NULL, "unpack: write every name in percent form", &spelled},
    {'f', "format", "FORM", "table: text, which is meant where none is said, csv or json", &form},
    {'n', "names", "RUNLIST", "table: the states of these spelled names, one a line, in this order", &names},
    {'r', "round", NULL, "pack, eval: round numbers that have more digits than their unit holds", &rounded},
    {'S', "split", NULL, "pack: write FILE-1.eas, FILE-2.eas, .. where one sheet is too small", &split},
    {'2', "version-2", NULL, "pack: write version 2 though no state has a remark, so that add takes it", &version_2},
    {'N', "name", "NAME", "add: the name as it is, in place of the operand NAME", &name},
    {'R', "remark", "TEXT", "add: the state's remark", &remark},
    {'F', "forward", NULL, "add: write a sheet of version 1 in version 2 first", &go_forward},
    {0},
};

static const tool description = {
    "pack [-o FILE.eas] [--round] [--split] [--version-2] [FILE.csv]\n"
    "unpack [-o FILE.csv] [--si] [--spelled] [FILE.eas]\n"
    "forward [-o FILE.eas] [FILE.eas]\n"
    "back [-o FILE.eas] [FILE.eas]\n"
    "add [-o FILE.eas] [--remark=TEXT] [--forward] NAME KIND FIRST DENSITY [FILE.eas]\n"
    "list [-o FILE.txt] [FILE.eas]\n"
    "table [-o FILE] [--format=FORM] [--names=RUNLIST] [FILE.eas]\n"
    "eval [-o FILE.csv] [--round] [FILE.csv]\n"
    "eval [-o FILE.txt] KIND FIRST DENSITY",
    "Packs a CSV text of states into a sheet, writes a sheet as text, or converts a sheet:\n"
    "forward writes one of version 1 in version 2 with empty remarks, back writes one of\n"
    "version 2 without remarks in version 1, for copies before 2.4.0, and tells the states\n"
    "whose kind some of these do not know. add puts one state behind those of a sheet of\n"
    "version 2: NAME with %2F for / and the like, KIND as the column kind has it, FIRST in Pa\n"
    "or J/kg and DENSITY in kg/m³. list writes the listing line of every state, table what is\n"
    "given, the answer in SI units or why there is none, and the remark. eval works out the\n"
    "states of a text, and writes its rows with the answers behind them, or one state.\n"
    "A file of - or none is standard input. The text's first row names its columns:\n"
    "  name            the name as it is, or\n"
    "  spelled         the name with %2F for / and the like; eval needs neither\n"
    "  pressure_Pa     with density_kg_m3: temperature is wanted (kind 1)\n"
    "  energy_J_kg     with density_kg_m3: entropy is wanted (kind 2), or pressure where\n"
    "                  the column kind says so (kind 3)\n"
    "  kind            1 or temperature, 2 or entropy, 3 or pressure; may be left out\n"
    "                  beside these but for pressure\n"
    "  first, density  whole units instead: 1e-6 Pa or 1e-3 J/kg, and 1e-11 kg/m3\n"
    "  remark          up to 255 bytes that no answer depends on, or\n"
    "  remark_spelled  the same with %00 for a zero byte and the like; both may be left out\n"
    "A quantity may have another unit: 'Pressure [kPa]', 'p (bar)', density_g_cm3. Known are\n"
    "Pa, hPa, kPa, MPa, mbar, bar, atm, Torr, psi, kg/m3, g/cm3, g/l, J/kg, kJ/kg and MJ/kg.\n"
    "Numbers are read exactly. Wrong lines are told, and then pack writes nothing.",
    options,
};

enum { PACK, UNPACK, FORWARD, BACK, ADD, LIST, TABLE, EVAL, VERBS, STATE_OPERANDS = 3 };

static const char *const verbs[VERBS] = {"pack", "unpack", "forward", "back", "add", "list", "table", "eval"};

/* Which verbs an option belongs to. */
static const struct {
    const char **option;
    unsigned verbs;
    const char *message;
} belongs[] = {
    {&si, 1U << UNPACK, "--si and --spelled belong to unpack"},
    {&spelled, 1U << UNPACK, "--si and --spelled belong to unpack"},
    {&form, 1U << TABLE, "--format and --names belong to table"},
    {&names, 1U << TABLE, "--format and --names belong to table"},
    {&rounded, 1U << PACK | 1U << EVAL, "--round belongs to pack and eval"},
    {&split, 1U << PACK, "--split and --version-2 belong to pack"},
    {&version_2, 1U << PACK, "--split and --version-2 belong to pack"},
    {&name, 1U << ADD, "--name, --remark and --forward belong to add"},
    {&remark, 1U << ADD, "--name, --remark and --forward belong to add"},
    {&go_forward, 1U << ADD, "--name, --remark and --forward belong to add"},
};

/* The verb that a word is; ends the program where it is none, or an option is another's. */
static int verb_called(const char *word) {
    int verb = 0;
    while (verb < VERBS && strcmp(word, verbs[verb]) != 0)
        verb++;
    if (verb == VERBS)
        misuse("'%s' is none of pack, unpack, forward, back, add, list, table and eval", word);
    for (size_t i = 0; i < sizeof belongs / sizeof *belongs; i++)
        if (*belongs[i].option && !(belongs[i].verbs & 1U << verb))
            misuse("%s", belongs[i].message);
    if (split && (!output || !strcmp(output, "-")))
        misuse("--split needs -o FILE.eas, for the names of the sheets");
    return verb;
}

static int run_add(char **operands, const char *input) {
    char **values = name ? operands : operands + 1;
    return add(input, output,
               &(state_words){name ? NULL : operands[0], name, values[0], values[1], values[2], remark, go_forward});
}

/* Does what the verb says with a file and the operands before it. */
static int run(int verb, char **operands, const char *input) {
    switch (verb) {
    case PACK:
        return pack(input, output, &(pack_options){rounded, split, version_2});
    case UNPACK:
        return unpack(input, output, si, spelled);
    case FORWARD:
        return convert(input, output, eas_forward);
    case BACK:
        return convert(input, output, eas_back);
    case ADD:
        return run_add(operands, input);
    case LIST:
        return list(input, output);
    case TABLE:
        return table(input, output, form, names);
    default:
        return eval_rows(input, output, rounded);
    }
}

int main(int argc, char **argv) {
    int at = read_options(&description, argc, argv);
    if (at == argc)
        misuse("pack, unpack, forward, back, add, list, table or eval must be said");
    int verb = verb_called(argv[at]), count = argc - at - 1;
    char **operands = argv + at + 1;
    if (verb == EVAL && count == STATE_OPERANDS && !rounded)
        return eval_state(output, operands[0], operands[1], operands[2]);
    if (verb == EVAL && count > 1)
        misuse("eval takes a file, or a kind, a first value and a density");
    int before = verb == ADD ? STATE_OPERANDS + !name : 0;
    if (count < before)
        misuse("add takes a name, a kind, a first value and a density");
    if (count > before + 1)
        misuse("one file at a time: %s is too much", operands[before + 1]);
    return run(verb, operands, count > before ? operands[before] : NULL);
}
