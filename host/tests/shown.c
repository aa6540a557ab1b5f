/* shown SHEET: a customer's own program, which shows what a search gives for each state of a sheet: its name, value and
 * unit, or its name alone. Linked with tests/faults.c, for tests of the checklist's --shown. */
#include "tools/common.h"
#include "tools/decimal.h"
#include "tools/kinds.h"
#include "tools/options.h"

static void print_name(const state *s) {
    putchar('"');
    for (size_t i = 0; i < s->length; i++) {
        if (s->name[i] == '"')
            putchar('"');
        putchar(s->name[i]);
    }
    putchar('"');
}

/* An answer is in the unit of its letter, whatever the state's kind is. */
static void print_value(const eas_answer *a) {
    char value[DECIMAL_ROOM];
    for (int k = 0; k < KIND_COUNT && !a->number; k++) {
        const quantity *wanted = kinds[k].wanted;
        if ((uint32_t)kinds[k].letter != a->letter)
            continue;
        write_decimal(value, (uint64_t)a->value, wanted->decimals);
        printf(",%s,%s", value, wanted->unit);
    }
}

int main(int argc, char **argv) {
    static uint8_t sheet[SHEET_MOST + 1];
    size_t n, at = HEAD;
    if (argc != 2)
        misuse("a sheet must be given");
    if (load_sheet(argv[1], sheet, &n))
        return REFUSED;
    printf("name,value,unit\n");
    for (unsigned i = record_count(sheet); i > 0; i--) {
        state s = next_state(sheet, &at);
        eas_answer a = search_state(sheet, n, &s);
        print_name(&s);
        print_value(&a);
        printf("\n");
    }
    return DONE;
}
