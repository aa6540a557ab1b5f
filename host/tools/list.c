#include "list.h"

#include "common.h"
#include "options.h"

int list(const char *input, const char *output) {
    static uint8_t sheet[SHEET_MOST + 1];
    uint8_t line[LINE_MOST];
    size_t n;
    if (load_sheet(input, sheet, &n))
        return REFUSED;
    FILE *file = open_output(output);
    if (!file)
        return REFUSED;
    eas_step step = {.walk = eas_begin(sheet, n).walk};
    do
        step = eas_next(sheet, n, step.walk, line, sizeof line);
    while (step.length > 0 && fwrite(line, 1, step.length, file) == step.length);
    return close_output(file, output);
}
