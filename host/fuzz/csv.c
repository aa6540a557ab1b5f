/* Fuzz driver for sheet_tool's reader and writer. A text that is packed is an accepted sheet; every way of writing it
 * as text packs to the same bytes again. */
#include <stdlib.h>
#include <string.h>

#include "guard.h"
#include "tools/options.h"
#include "tools/pack.h"

static void pack_again(const uint8_t *sheet, size_t n, bool si, bool spelled) {
    static uint8_t again[SHEET_MOST];
    size_t length, m = 0;
    char *text;
    FILE *out = open_memstream(&text, &length);
    require(out != NULL, "memory for a text");
    unpack_to(out, sheet, si, spelled);
    require(fclose(out) == 0, "memory for a text");
    require(pack_text("again", text, length, again, &m) == DONE, "a written text is packed");
    require(n == m && !memcmp(sheet, again, n), "a written text packs to the same sheet");
    free(text);
}

int LLVMFuzzerTestOneInput(const uint8_t *data, size_t size);

int LLVMFuzzerTestOneInput(const uint8_t *data, size_t size) {
    static uint8_t sheet[SHEET_MOST];
    size_t n = 0;
    if (pack_text("text", (const char *)data, size, sheet, &n) != DONE)
        return 0;
    require(eas_check(sheet, n) == 0, "a packed text is an accepted sheet");
    for (int way = 0; way < 4; way++)
        pack_again(sheet, n, way & 1, way & 2);
    return 0;
}
