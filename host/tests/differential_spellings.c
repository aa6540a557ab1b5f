/* Reading and writing names, compared with the reference; what is written must read back, in its one written form. */
#include <inttypes.h>
#include <stdio.h>
#include <string.h>

#include "airstate.h"
#include "differential.h"
#include "lent.h"
#include "reference/name.h"
#include "sheets.h"
#include "tally.h"

enum { SPELLINGS_PART = 33, ROOM_MAX = 256, LONG_BYTES = 70000 };

static lent_buffer input_lent, output_lent, back_lent;
static uint64_t reads_by_number[15], writes_by_number[15];

static void show(const char *call, const uint8_t *input, size_t n, eas_text got) {
    tally_note("%s gave number %" PRIu32 " length %zu", call, got.number, got.length);
    tally_hex("input", input, n);
    tally_hex("output", output_lent.bytes, output_lent.size);
}

static const uint8_t *lend(random_source *r, const uint8_t *input, size_t n) {
    const uint8_t *lent = lent_input(&input_lent, input, n);
    return n == 0 && random_below(r, 2) ? NULL : lent;
}

/* Rooms around a length, and others. */
static size_t choose_room(random_source *r, size_t length, size_t most) {
    const size_t rooms[] = {length, length - (length > 0), length + 1, most, random_below(r, ROOM_MAX), 0};
    return rooms[random_below(r, 6)];
}

static void compare_read(random_source *r, const uint8_t *spelling, size_t n) {
    read_name expected = name_read(spelling, n);
    size_t room = choose_room(r, expected.length, NAME_MAX_BYTES);
    uint32_t number = expected.number != 0 ? expected.number : room < expected.length ? 14 : 0;
    size_t length = number == 0 ? expected.length : 0;
    const uint8_t *input = lend(r, spelling, n);
    uint8_t *out = lent_output(&output_lent, room);
    if (room == 0 && random_below(r, 2))
        out = NULL;
    eas_text got = eas_read(input, n, out, room);
    bool same = got.number == number && got.length == length && lent_output_is(&output_lent, expected.bytes, length) &&
                lent_input_kept(&input_lent, spelling);
    if (!tally_check(same, "eas_read in %zu bytes: expected number %" PRIu32 " length %zu", room, number, length))
        show("eas_read", spelling, n, got);
    reads_by_number[number]++;
}

static void compare_spell(random_source *r, const tried_bytes *name) {
    written_name expected = name_write(name->bytes, name->n);
    size_t room = choose_room(r, expected.length, SPELLING_MAX_BYTES);
    uint32_t number = expected.number != 0 ? expected.number : room < expected.length ? 14 : 0;
    size_t length = number == 0 ? expected.length : 0;
    const uint8_t *input = lend(r, name->bytes, name->n);
    uint8_t *out = lent_output(&output_lent, room);
    if (room == 0 && random_below(r, 2))
        out = NULL;
    eas_text got = eas_spell(input, name->n, out, room);
    bool same = got.number == number && got.length == length && lent_output_is(&output_lent, expected.bytes, length) &&
                lent_input_kept(&input_lent, name->bytes);
    if (!tally_check(same, "eas_spell in %zu bytes: expected number %" PRIu32 " length %zu", room, number, length))
        show("eas_spell", name->bytes, name->n, got);
    writes_by_number[number]++;
}

/* A name written and read again by the library is itself, whatever its bytes. */
static void compare_round_trip(random_source *r, const tried_bytes *name) {
    uint8_t *spelled = lent_output(&output_lent, SPELLING_MAX_BYTES);
    eas_text written = eas_spell(lend(r, name->bytes, name->n), name->n, spelled, SPELLING_MAX_BYTES);
    if (written.number != 0)
        return;
    eas_text again = eas_read(spelled, written.length, lent_output(&back_lent, NAME_MAX_BYTES), NAME_MAX_BYTES);
    bool same = again.number == 0 && again.length == name->n && lent_output_is(&back_lent, name->bytes, name->n);
    if (!tally_check(same, "round trip"))
        show("eas_read", name->bytes, name->n, again);
}

static void check_reach(void) {
    tally_case("reach of spellings", 0);
    printf("  readings by number: 0: %" PRIu64 " 7: %" PRIu64 " 8: %" PRIu64 " 14: %" PRIu64, reads_by_number[0],
           reads_by_number[7], reads_by_number[8], reads_by_number[14]);
    printf("; writings by number: 0: %" PRIu64 " 8: %" PRIu64 " 14: %" PRIu64 "\n", writes_by_number[0],
           writes_by_number[8], writes_by_number[14]);
    tally_check(reads_by_number[0] > 0 && reads_by_number[7] > 0 && reads_by_number[8] > 0 && reads_by_number[14] > 0,
                "readings");
    tally_check(writes_by_number[0] > 0 && writes_by_number[8] > 0 && writes_by_number[14] > 0, "writings");
}

/* Every single byte as a name and as a spelling; every pair of bytes after a percent sign. */
static void compare_all_short(random_source *r) {
    for (unsigned i = 0; i < 65536; i++) {
        tried_bytes one = {.n = 1, .bytes = {(uint8_t)i}};
        tried_bytes percent = {.n = 3, .bytes = {'%', (uint8_t)(i >> 8), (uint8_t)i}};
        tally_case("short spelling", i);
        compare_read(r, percent.bytes, percent.n);
        if (i >= 256)
            continue;
        compare_read(r, one.bytes, one.n);
        compare_spell(r, &one);
        compare_round_trip(r, &one);
    }
}

/* Longer than any spelling and any sheet: right throughout, and wrong at the first byte, late, or at the end. */
static void compare_long(random_source *r) {
    static uint8_t bytes[LONG_BYTES];
    static const size_t wrong[] = {0, 120, 65536, LONG_BYTES - 1};
    for (int i = 0; i < 5; i++) {
        memset(bytes, 'a', LONG_BYTES);
        if (i < 4)
            bytes[wrong[i]] = '%';
        tally_case("long spelling", (uint64_t)i);
        compare_read(r, bytes, LONG_BYTES);
        eas_text got = eas_spell(lend(r, bytes, LONG_BYTES), LONG_BYTES, lent_output(&output_lent, ROOM_MAX), ROOM_MAX);
        tally_check(got.number == 8 && got.length == 0 && lent_output_is(&output_lent, NULL, 0),
                    "eas_spell of a long name");
    }
}

void compare_spellings(uint64_t seed, uint64_t count) {
    random_source all = random_case(seed, SPELLINGS_PART, 0);
    lent_open(&input_lent, LONG_BYTES);
    lent_open(&output_lent, ROOM_MAX);
    lent_open(&back_lent, NAME_MAX_BYTES);
    compare_all_short(&all);
    compare_long(&all);
    for (uint64_t i = 1; i <= count; i++) {
        random_source r = random_case(seed, SPELLINGS_PART, i);
        tried_bytes spelling, name;
        tally_case("spelling", i);
        random_spelling(&spelling, &r);
        compare_read(&r, spelling.bytes, spelling.n);
        random_name(&name, &r);
        compare_spell(&r, &name);
        compare_round_trip(&r, &name);
    }
    check_reach();
}
