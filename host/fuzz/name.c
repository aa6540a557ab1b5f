/* Fuzz driver for eas_read and eas_spell. The input is taken once as a spelling and once as a raw name.
 *
 * Both are compared with the plain C reader and writer. A refusal changes no byte; a success writes a prefix; a second
 * call gives the same; a written spelling reads back to its name and is the only one that is written for it. */
#include <string.h>

#include "guard.h"
#include "plain/baseline.h"
#include "tools/record.h"

static guard input_guard, output_guard, name_guard;

/* Reads a spelling twice into marked bytes; returns the name's length, 0 where it is refused. */
static size_t read_name(const uint8_t *spelled, size_t n, uint8_t name[NAME_MOST]) {
    uint8_t expected[NAME_MOST];
    const uint8_t *input = guard_take(&input_guard, spelled, n);
    eas_text plain = baseline_read(spelled, n, expected);
    for (int call = 0; call < 2; call++) {
        uint8_t *out = guard_take(&name_guard, NULL, NAME_MOST);
        eas_text read = eas_read(input, n, out, NAME_MOST);
        require(read.number == plain.number && read.length == plain.length, "eas_read's result is the plain reader's");
        require(!memcmp(out, expected, plain.length), "eas_read's name is the plain reader's");
        require(guard_kept(&name_guard, NAME_MOST, plain.length), "eas_read writes a prefix only");
        require(n == 0 || !memcmp(input, spelled, n), "eas_read leaves the spelling as it is");
        memcpy(name, out, plain.length);
    }
    if (plain.length > 0) {
        eas_text cut = eas_read(input, n, guard_take(&name_guard, NULL, plain.length - 1), plain.length - 1);
        require(cut.number == 14 && cut.length == 0, "a name without room is refused");
        require(guard_kept(&name_guard, plain.length - 1, 0), "a refused reading writes nothing");
    }
    return plain.length;
}

static void spell_into(const uint8_t *input, size_t n, const uint8_t *expected, eas_text plain, size_t room) {
    uint8_t *out = guard_take(&output_guard, NULL, room);
    eas_text text = eas_spell(input, n, out, room);
    int fits = plain.number == 0 && plain.length <= room;
    uint32_t number = plain.number ? plain.number : fits ? 0 : 14;
    require(text.number == number && text.length == (fits ? plain.length : 0),
            "eas_spell's result is the plain writer's");
    require(!fits || (out && !memcmp(out, expected, plain.length)), "eas_spell's text is the plain writer's");
    require(guard_kept(&output_guard, room, fits ? plain.length : 0), "eas_spell writes a prefix only");
}

/* Spells a raw name into rooms around its length, and reads it back. */
static void spell_name(const uint8_t *name, size_t n) {
    uint8_t text[SPELLED_MOST] = {0}, back[NAME_MOST];
    const uint8_t *input = guard_take(&input_guard, name, n);
    eas_text plain = baseline_spell(name, n, text, sizeof text);
    size_t rooms[] = {0, plain.length - (plain.length > 0), plain.length, plain.length + 1, SPELLED_MOST};
    for (size_t i = 0; i < sizeof rooms / sizeof *rooms; i++)
        spell_into(input, n, text, plain, rooms[i]);
    if (plain.number)
        return;
    size_t length = read_name(text, plain.length, back);
    require(length == n && !memcmp(back, name, n), "a written spelling reads back to its name");
}

int LLVMFuzzerTestOneInput(const uint8_t *data, size_t size);

int LLVMFuzzerTestOneInput(const uint8_t *data, size_t size) {
    uint8_t name[NAME_MOST];
    if (size > ROOM_MOST)
        return 0;
    size_t length = read_name(data, size, name);
    if (length)
        spell_name(name, length);
    spell_name(data, size);
    return 0;
}
