#include "sheets.h"

#include <string.h>

#include "chain.h"
#include "reference/kinds.h"
#include "states.h"

enum { SHEET_LIMIT = 65536, REMARK_MOST = 255 };

static void put(tried_sheet *s, uint64_t number, int bytes) {
    for (int i = bytes - 1; i >= 0; i--)
        if (s->n < SHEET_ROOM)
            s->bytes[s->n++] = (uint8_t)(number >> (8 * i));
}

static uint8_t random_byte(random_source *r) {
    static const char likely[] = "azAZ09-._~%/ +@[`{\0\xff\n2fF";
    return random_below(r, 3) == 0 ? (uint8_t)random_bits(r) : (uint8_t)likely[random_below(r, sizeof likely - 1)];
}

void random_name(tried_bytes *out, random_source *r) {
    static const size_t edges[] = {0, 1, 2, 39, 40, 41};
    out->n = random_below(r, 4) == 0 ? edges[random_below(r, 6)] : 1 + random_below(r, random_below(r, 2) ? 40 : 3);
    for (size_t i = 0; i < out->n; i++)
        out->bytes[i] = random_byte(r);
}

/* Damages of a record while it is written; those of a remark stand last. */
typedef enum {
    LENGTH_ZERO,
    LENGTH_41,
    LENGTH_ANY,
    LENGTH_LESS,
    KIND_WRONG,
    NAME_AGAIN,
    REMARK_MORE,
    REMARK_LESS,
    REMARK_ANY,
    REMARK_CUT,
    RECORD_DAMAGES,
    PLAIN_DAMAGES = REMARK_MORE
} record_damage;

static void put_record(tried_sheet *s, random_source *r, const tried_bytes *name, int damage) {
    uint8_t length = (uint8_t)name->n, kind = (uint8_t)(1 + random_below(r, LAST_KIND));
    air_state state = random_below(r, 4) == 0 ? random_state(r) : plane_state(r, kind);
    static const uint8_t wrong_kinds[] = {0, LAST_KIND + 1, LAST_KIND + 2, 49, 50, 51, 255};
    if (damage == LENGTH_ZERO)
        length = 0;
    if (damage == LENGTH_41)
        length = 41;
    if (damage == LENGTH_ANY)
        length = (uint8_t)random_bits(r);
    if (damage == LENGTH_LESS)
        length--;
    if (damage == KIND_WRONG)
        kind = wrong_kinds[random_below(r, sizeof wrong_kinds)];
    put(s, length, 1);
    for (size_t i = 0; i < name->n; i++)
        put(s, name->bytes[i], 1);
    put(s, kind, 1);
    put(s, state.first, 8);
    put(s, state.second, 8);
}

/* A remark of some length; at times it begins with the bytes of a whole record: this one, or one with another name. */
static void random_remark(tried_bytes *out, random_source *r, const uint8_t *record, size_t n) {
    static const size_t edges[] = {0, 0, 1, 2, 254, REMARK_MOST};
    out->n = random_below(r, 2) ? edges[random_below(r, 6)] : random_below(r, REMARK_MOST + 1);
    for (size_t i = 0; i < REMARK_MOST; i++)
        out->bytes[i] = random_byte(r);
    if (random_below(r, 4) != 0)
        return;
    memcpy(out->bytes, record, n);
    out->bytes[n] = 0;
    if (random_below(r, 2))
        out->bytes[1] ^= 1;
    if (random_below(r, 2))
        out->n = n + random_below(r, 2);
}

static void put_remark(tried_sheet *s, random_source *r, const tried_bytes *remark, int damage) {
    size_t start = s->n;
    uint8_t length = (uint8_t)remark->n;
    if (damage == REMARK_MORE)
        length++;
    if (damage == REMARK_LESS)
        length--;
    if (damage == REMARK_ANY)
        length = (uint8_t)random_bits(r);
    put(s, length, 1);
    for (size_t i = 0; i < remark->n; i++)
        put(s, remark->bytes[i], 1);
    if (damage == REMARK_CUT)
        s->n = start + random_below(r, 1 + remark->n);
}

/* A name that no record before it has: its last bytes are its index. */
static void distinct_name(tried_bytes *name, random_source *r, size_t index, bool shortest) {
    if (index < 256 && (shortest || random_below(r, 4) == 0)) {
        name->n = 1;
        name->bytes[0] = (uint8_t)index;
        return;
    }
    name->n = 2 + (shortest ? 0 : random_below(r, 39));
    for (size_t i = 0; i < name->n; i++)
        name->bytes[i] = random_byte(r);
    name->bytes[name->n - 2] = (uint8_t)(index >> 8);
    name->bytes[name->n - 1] = (uint8_t)index;
}

/* What a sheet is to have: records up to a count, the one at `damaged` with its damage. Every remark of a large sheet
 * has the same length, and it has `limit` bytes. In a bare one remarks are empty but for the record's at `remarked`. */
typedef struct {
    int version, damage;
    bool large, bare;
    size_t limit, count, damaged, remark_length, remarked;
} sheet_plan;

/* Where no further record fits, this one takes what is left of the limit: its remark up to 255 bytes unless it is to be
 * empty, its name the rest of them, which is at most 22. */
static void fill_up(size_t *name, size_t *remark, const sheet_plan *plan, size_t left) {
    size_t other = plan->version == 1 ? 18 : 19, spare = left - other;
    if (spare >= *name + *remark + other + 2)
        return;
    if (plan->version == 2 && !plan->bare)
        *remark = spare - *name < REMARK_MOST ? spare - *name : REMARK_MOST;
    *name = spare - *remark;
}

static size_t put_records(tried_sheet *s, random_source *r, const sheet_plan *plan) {
    tried_bytes name = {0}, kept = {0}, remark = {0};
    size_t written = 0;
    for (bool cut = false; written < plan->count && s->n < plan->limit && !cut; written++) {
        int damage = written == plan->damaged ? plan->damage : RECORD_DAMAGES;
        size_t start = s->n, length = plan->remark_length;
        distinct_name(&name, r, written, plan->large);
        if (plan->large)
            fill_up(&name.n, &length, plan, plan->limit - start);
        if (damage == NAME_AGAIN && written > 0)
            name = kept;
        if (written == 0 || random_below(r, 4) == 0)
            kept = name;
        put_record(s, r, &name, damage);
        if (plan->version == 1)
            continue;
        random_remark(&remark, r, s->bytes + start, s->n - start);
        if (plan->large)
            remark.n = length;
        else if (plan->bare && written != plan->remarked)
            remark.n = 0;
        put_remark(s, r, &remark, damage);
        cut = damage == REMARK_CUT;
    }
    return written;
}

/* Damages of a finished sheet. */
static void damage_sheet(tried_sheet *s, random_source *r) {
    size_t at = s->n == 0 ? 0 : random_below(r, s->n);
    switch (random_below(r, 9)) {
    case 0:
        s->n = at;
        break;
    case 1:
        s->n = at % 9;
        break;
    case 2:
        put(s, random_bits(r), (int)(1 + random_below(r, 8)));
        break;
    case 3:
        s->bytes[at] = (uint8_t)random_bits(r);
        break;
    case 4:
        s->bytes[at] ^= (uint8_t)(1u << random_below(r, 8));
        break;
    case 5:
        s->bytes[random_below(r, 3)] ^= (uint8_t)(1 + random_below(r, 255));
        break;
    case 6:
        s->bytes[3 + random_below(r, 2)] = (uint8_t)random_below(r, 4);
        break;
    case 7:
        s->bytes[6] = (uint8_t)(s->bytes[6] + (random_below(r, 2) ? 1 : -1));
        break;
    default:
        s->bytes[5] = (uint8_t)random_below(r, 3);
        break;
    }
}

/* Fills up to a length at or beyond the limit with a byte. */
static void stretch(tried_sheet *s, random_source *r) {
    size_t wanted = SHEET_LIMIT - 2 + random_below(r, 5);
    while (s->n < wanted)
        s->bytes[s->n++] = 0;
    s->n = wanted;
}

static void plan_sheet(sheet_plan *plan, random_source *r, int version, bool large) {
    *plan = (sheet_plan){.version = version, .damage = RECORD_DAMAGES, .large = large, .limit = SHEET_LIMIT};
    plan->count = large ? 4000 : random_below(r, 8) == 0 ? 60 : random_below(r, 7);
    plan->damaged = large ? 1000 + random_below(r, 2001) : random_below(r, plan->count + 1);
    if (random_below(r, 3) == 0)
        plan->damage = (int)random_below(r, version == 1 ? PLAIN_DAMAGES : RECORD_DAMAGES);
    if (large && version == 2 && random_below(r, 2)) {
        plan->remark_length = REMARK_MOST;
        plan->damaged %= 238;
    }
}

static void put_head(tried_sheet *out, int version) {
    out->n = 0;
    put(out, 0x454153, 3);
    put(out, (uint64_t)version, 2);
    put(out, 0, 2);
}

static void put_count(tried_sheet *out, size_t count) {
    out->bytes[5] = (uint8_t)(count >> 8);
    out->bytes[6] = (uint8_t)count;
}

static void put_sheet(tried_sheet *out, random_source *r, const sheet_plan *plan) {
    put_head(out, plan->version);
    put_count(out, put_records(out, r, plan));
}

/* Names of three, four and five bytes in turn. */
void one_chain_sheet(tried_sheet *out, random_source *r, size_t count, bool again, tried_bytes *absent) {
    tried_bytes names[] = {{.n = 3}, {.n = 4}, {.n = 5}}, first = {0};
    size_t i = 0;
    put_head(out, 1);
    for (; i < count && SHEET_LIMIT - out->n >= 18 + names[i % 3].n; i++) {
        tried_bytes *name = &names[i % 3];
        next_in_chain(name->bytes, name->n);
        if (i == 0)
            first = *name;
        size_t left = SHEET_LIMIT - out->n - 18 - name->n;
        bool is_last = i + 1 == count || left < 18 + 5;
        put_record(out, r, again && is_last ? &first : name, RECORD_DAMAGES);
    }
    put_count(out, i);
    *absent = names[0];
    next_in_chain(absent->bytes, absent->n);
}

void fullest_sheet(tried_sheet *out, random_source *r, int version, size_t n) {
    put_sheet(out, r,
              &(sheet_plan){.version = version,
                            .damage = RECORD_DAMAGES,
                            .large = true,
                            .bare = true,
                            .limit = n,
                            .count = SHEET_LIMIT});
}

void remarked_sheet(tried_sheet *out, random_source *r, size_t n) {
    put_sheet(out, r,
              &(sheet_plan){.version = 2,
                            .damage = RECORD_DAMAGES,
                            .large = true,
                            .limit = n,
                            .count = SHEET_LIMIT,
                            .remark_length = REMARK_MOST});
}

static void put_random_sheet(tried_sheet *out, random_source *r, const sheet_plan *plan) {
    put_sheet(out, r, plan);
    for (uint64_t damages = random_below(r, 6); damages > 3; damages--)
        damage_sheet(out, r);
    if (plan->large && random_below(r, 3) == 0)
        stretch(out, r);
}

void random_sheet_of(tried_sheet *out, random_source *r, int version, int large) {
    sheet_plan plan;
    plan_sheet(&plan, r, version, large != 0);
    put_random_sheet(out, r, &plan);
}

void random_bare_sheet(tried_sheet *out, random_source *r, int large) {
    sheet_plan plan;
    plan_sheet(&plan, r, 2, large != 0);
    plan.bare = true;
    plan.remark_length = 0;
    plan.remarked = random_below(r, 2) ? random_below(r, plan.count + 1) : plan.count;
    put_random_sheet(out, r, &plan);
}

void random_sheet(tried_sheet *out, random_source *r, int large) {
    random_sheet_of(out, r, random_below(r, 3) == 0 ? 2 : 1, large);
}

/* Bytes of the record at `at` up to its remark, 0 where there is no such record. */
static size_t bytes_before_remark(const tried_sheet *s, size_t at) {
    if (at >= s->n || s->bytes[at] == 0 || s->bytes[at] > 40)
        return 0;
    size_t bytes = s->bytes[at] + 18u;
    return s->n - at >= bytes ? bytes : 0;
}

static void put_bytes(tried_sheet *s, const uint8_t *bytes, size_t n) {
    memcpy(s->bytes + s->n, bytes, n);
    s->n += n;
}

/* Writes another remark for the record of n bytes before its own, cut where that is, such that `kept` bytes more still
 * fit; at times of the same length. */
static void put_other_remark(tried_sheet *s, random_source *r, const uint8_t *record, size_t n, bool cut, size_t kept) {
    tried_bytes remark;
    size_t room = SHEET_LIMIT - s->n - kept;
    random_remark(&remark, r, record, n);
    if (!cut && random_below(r, 4) == 0)
        remark.n = record[n];
    if (room == 0)
        return;
    if (remark.n >= room)
        remark.n = room - 1;
    put_remark(s, r, &remark, cut ? REMARK_CUT : RECORD_DAMAGES);
}

bool change_remarks(tried_sheet *out, random_source *r, const tried_sheet *sheet) {
    size_t at = sheet->n < 7 ? sheet->n : 7, bytes;
    bool all = random_below(r, 4) != 0, cut_otherwise = false;
    out->n = 0;
    put_bytes(out, sheet->bytes, at);
    while ((bytes = bytes_before_remark(sheet, at)) > 0) {
        const uint8_t *record = sheet->bytes + at;
        size_t left = sheet->n - at - bytes, remark = left == 0 ? 1 : 1u + record[bytes];
        bool cut = left < remark;
        if (cut)
            remark = left;
        bool changed = all || random_below(r, 4) == 0;
        put_bytes(out, record, bytes);
        if (changed)
            put_other_remark(out, r, record, bytes, cut, left - remark);
        else
            put_bytes(out, record + bytes, remark);
        cut_otherwise = cut && changed;
        at += bytes + remark;
    }
    put_bytes(out, sheet->bytes + at, sheet->n - at);
    return cut_otherwise;
}

static bool needs_percent(uint8_t byte) {
    static const char plain[] = "ABCDEFGHIJKLMNOPQRSTUVWXYZabcdefghijklmnopqrstuvwxyz0123456789-._~";
    return byte == 0 || strchr(plain, byte) == NULL;
}

void random_spelling_of(tried_bytes *out, random_source *r, const uint8_t *name, size_t n) {
    static const char digits[] = "0123456789ABCDEF0123456789abcdef";
    out->n = 0;
    for (size_t i = 0; i < n; i++) {
        if (!needs_percent(name[i]) && random_below(r, 4) != 0) {
            out->bytes[out->n++] = name[i];
            continue;
        }
        out->bytes[out->n++] = '%';
        out->bytes[out->n++] = (uint8_t)digits[name[i] / 16 + 16 * random_below(r, 2)];
        out->bytes[out->n++] = (uint8_t)digits[name[i] % 16 + 16 * random_below(r, 2)];
    }
}

void random_spelling(tried_bytes *out, random_source *r) {
    tried_bytes name;
    if (random_below(r, 8) == 0) {
        out->n = random_below(r, 2) ? random_below(r, 6) : random_below(r, 200);
        for (size_t i = 0; i < out->n; i++)
            out->bytes[i] = random_byte(r);
        return;
    }
    random_name(&name, r);
    random_spelling_of(out, r, name.bytes, name.n);
    if (random_below(r, 3) != 0 || out->n == 0)
        return;
    size_t at = random_below(r, out->n);
    switch (random_below(r, 4)) {
    case 0:
        out->bytes[at] = random_byte(r);
        break;
    case 1:
        out->n = at;
        break;
    case 2:
        out->bytes[out->n++] = '%';
        break;
    default:
        out->bytes[at] = '%';
        break;
    }
}
