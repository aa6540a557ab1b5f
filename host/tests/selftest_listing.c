/* The reference's numerals against tests/listing, which was typed from source document 000 by another hand. */
#include <stdio.h>
#include <stdlib.h>
#include <string.h>

#include "reference/fit.h"
#include "selftest.h"
#include "tally.h"

enum { LINE_ROOM = 256, WORDS = 8 };

/* Where the numerals of GAS1 to GAS4 begin among the ten, which GAS5 to GAS8 repeat. */
static const int first_term[] = {0, 2, 4, 7}, terms[] = {2, 2, 3, 3};

/* Numerals that were compared. */
static int compared;

static void compare_number(int64_t printed, const char *word, const char *name) {
    tally_check(printed == numeral_units(word + (*word == '+')), "%s: %s", name, word);
}

static void compare_numerals(const char *const *printed, int count, char **words, int given, const char *name) {
    tally_check(given == count, "%s: %d numerals", name, given);
    for (int i = 0; i < count && i < given; i++, compared++)
        compare_number(printed[i] == NULL ? 0 : numeral_units(printed[i]), words[i], name);
}

/* Ten numerals in four statements. */
static void compare_group(const char *const *ten, int statement, char **words, int given, const char *name) {
    compare_numerals(ten + first_term[statement], terms[statement], words, given, name);
}

static int number_of(const char *word) {
    return (int)strtol(word, NULL, 10);
}

/* A line of a piece: its numerals, an end, the sign of its transition, or what keeps its exponent. */
static void compare_piece(const printed_piece *piece, const char *name, char **words, int given) {
    int gas = strncmp(name, "GAS", 3) == 0 ? number_of(name + 3) : 0;
    if (gas >= 1 && gas <= 8)
        compare_group(gas <= 4 ? piece->a : piece->b, (gas - 1) % 4, words, given, name);
    else if (gas == 9)
        compare_numerals(piece->exponent, EXPONENT_TERMS, words, given, name);
    else if (strcmp(name, "GAMMA") == 0)
        compare_numerals(piece->a, 1, words, given, name);
    else if (strcmp(name, "SIGN") == 0)
        tally_check(piece->minus && strcmp(words[0], "-") == 0, "sign of label %d", piece->label);
    else if (strcmp(name, "KEPT") == 0)
        compare_number(piece->kept == NULL ? 0 : numeral_units(piece->kept), words[0], name);
    else
        compare_number(10000 * piece->upper, words[0], name);
}

/* A file of pieces has lines for each of its labels. */
static const printed_piece *piece_called(fitted_property of, int label) {
    for (int i = 0; i < BANDS * PIECES; i++)
        if (printed_pieces[of][i / PIECES][i % PIECES].label == label)
            return &printed_pieces[of][i / PIECES][i % PIECES];
    return NULL;
}

/* TGAS2 has a label for each band. */
static void compare_entropy(int label, const char *name, char **words, int given) {
    int band = label / 10 - 8;
    if (!tally_check(label % 10 == 0 && band >= 0 && band < BANDS, "label %d", label))
        return;
    if (strcmp(name, "LIMIT") == 0)
        compare_number(10000 * entropy_limit((density_band)band), words[0], name);
    else
        compare_group(printed_entropy[band], number_of(name + 3) - 1, words, given, name);
}

/* of: FITTED for the entropy. */
static void compare_line(char *line, fitted_property of) {
    char *rest, *words[WORDS] = {strtok_r(line, " \n", &rest)};
    int given = 0;
    while (words[given] != NULL && given + 1 < WORDS)
        words[++given] = strtok_r(NULL, " \n", &rest);
    if (given == 0 || words[0][0] == '#')
        return;
    tally_check(given >= 3, "a line of %d words", given);
    if (given < 3)
        return;
    int label = number_of(words[0]);
    if (of == FITTED) {
        compare_entropy(label, words[1], words + 2, given - 2);
        return;
    }
    const printed_piece *piece = piece_called(of, label);
    tally_check(piece != NULL, "label %d", label);
    if (piece != NULL)
        compare_piece(piece, words[1], words + 2, given - 2);
}

/* How many numerals the reference has. */
static int numerals_of(fitted_property of) {
    int count = 0;
    for (int i = 0; i < BANDS * PIECES && of != FITTED; i++) {
        const printed_piece *piece = &printed_pieces[of][i / PIECES][i % PIECES];
        for (int j = 0; j < BICUBIC_TERMS; j++)
            count += (piece->a[j] != NULL) + (piece->b[j] != NULL) + (j < EXPONENT_TERMS && piece->exponent[j] != NULL);
    }
    return of == FITTED ? BANDS * BICUBIC_TERMS : count;
}

void test_listing(void) {
    static const char *const files[] = {[TEMPERATURE] = "temperature", [PRESSURE] = "pressure", [FITTED] = "entropy"};
    for (int i = 0; i <= FITTED; i++) {
        char path[4096], line[LINE_ROOM];
        snprintf(path, sizeof path, "%s/%s.txt", LISTING_FOLDER, files[i]);
        FILE *file = fopen(path, "r");
        tally_case(files[i], 0);
        compared = 0;
        for (uint64_t n = 1; file != NULL && fgets(line, sizeof line, file) != NULL; n++) {
            tally_case(files[i], n);
            compare_line(line, (fitted_property)i);
        }
        tally_check(compared == numerals_of((fitted_property)i), "%d numerals compared with %s", compared, path);
        if (file != NULL)
            fclose(file);
    }
}
