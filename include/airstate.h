/* Equilibrium air: temperature, entropy, pressure and the state sheet.
 *
 * A sheet is the bytes of a file as docs/FORMAT.md has it: named states, each with a kind and two values and, in
 * version 2, a remark of up to 255 bytes, which no answer depends on: two sheets within 65,536 bytes that differ only
 * in remarks get equal numbers and equal answers from every call but eas_remark, eas_back and eas_add, the places of
 * their names aside. A spelled name is a name by RFC 3986: letters, digits and - . _ ~ stand for themselves, any other
 * byte is % and two hexadecimal digits. A name itself is 1 to 40 bytes of any value.
 *
 * kind  first value                    second value                   answer
 *   1   pressure in 10^-6 Pa,          density in 10^-11 kg/m3,       letter 'T': temperature in 10^-6 K
 *       1 to 10^17                     12,920 to 129,200,000,000,000
 *   2   energy in 10^-3 J/kg,          the same                       letter 'S': entropy in 10^-4 J/(kg K)
 *       7,840,840 to 10^12
 *   3   the same                       the same                       letter 'P': pressure in 10^-6 Pa
 *
 * An answer's logarithms are decimal ones in millionths: y of the density over 1.292 kg/m3, x of the pressure over
 * 101,330 Pa, z = x - y for a temperature, z of the energy over 78,408.4 J/kg for an entropy and a pressure.
 *
 * A pressure is D E (gamma - 10^10) / 10^18, rounded down: D and E are the density and the energy as given, gamma is
 * the fitted ratio of enthalpy to energy in units of 10^-10. It is fitted up to z = 3,690,000, 3,400,000 and 2,900,000
 * in the low, middle and high density band.
 *
 * The fits have three density bands, which meet at y = -4,500,000 and y = -500,000. Strictly within 25,000 of the first
 * edge and 5,000 of the second a value is joined: it lies on the straight line, rounded down, between the values at
 * both ends of that strip, each worked out with the state's own z in the band of its own y. So a plot has no step
 * there. An entropy and a pressure are joined at every z, a temperature where its z is above 250,000; up to that the
 * gas is perfect. At both ends a pressure takes that end's gamma with the state's own density and energy.
 *
 * How near an answer is said to be to its fit is not how near it is to air: for that see docs/AIR.md, by which a
 * temperature may be some 2 % off and steps by about 1 % where its perfect gas ends.
 *
 * A byte sequence is a pointer and a length; a null pointer is allowed where the length is 0. A buffer that is lent for
 * writing overlaps no other argument. A refusal changes no byte of it; a success writes a prefix.
 *
 * No call keeps state, allocates or fails otherwise than by a number, so that calls may run in several threads at once.
 * No call uses 128 KB of stack. */
#ifndef AIRSTATE_H
#define AIRSTATE_H

#include <stddef.h>
#include <stdint.h>

#ifdef __cplusplus
extern "C" {
#endif

/* The version of this header. The library has the same soname as long as the first number stays. */
#define EAS_VERSION_MAJOR 2
#define EAS_VERSION_MINOR 6
#define EAS_VERSION_PATCH 0
#define EAS_VERSION "2.6.0"

/* Whether this header is of a version or a later one: #if !EAS_VERSION_AT_LEAST(2, 0, 0) ... #error */
#define EAS_VERSION_AT_LEAST(major, minor, patch)                                                                      \
    (EAS_VERSION_MAJOR * 1000000 + EAS_VERSION_MINOR * 1000 + EAS_VERSION_PATCH >=                                     \
     (major)*1000000 + (minor)*1000 + (patch))

/* Bytes that are enough for every result. */
enum {
    EAS_NAME_ROOM = 40,      /* a name */
    EAS_SPELLING_ROOM = 120, /* a spelling as it is written */
    EAS_REMARK_ROOM = 255,   /* a remark */
    EAS_LINE_ROOM = 192,     /* a listing line with its newline */
    EAS_SHEET_ROOM = 65536   /* a sheet; the longest name list too */
};

/* Refusals, in the order in which they are looked for: the first that applies is given. */
enum {
    /* the sheet as a whole */
    EAS_SHEET_TOO_LONG = 1,  /* over 65,536 bytes; after all the sheet's own, a sheet that eas_forward would make */
    EAS_NOT_A_SHEET = 2,     /* under 7 bytes, or the first three are not EAS */
    EAS_VERSION_UNKNOWN = 3, /* its version is neither 1 nor 2; for eas_forward not 1, for eas_back and eas_add not 2 */
    /* each record in turn */
    EAS_RECORD_CUT = 4, /* its length byte, its rest or its remark is cut; after the records, bytes are left over */
    EAS_RECORD_NAME_LENGTH = 5, /* its name's length is 0 or over 40 */
    EAS_KIND_UNKNOWN = 6,       /* its kind is none of the table above */
    EAS_NAME_REPEATED = 16,     /* an earlier record has its name; of a state to be added, any record */
    /* a name */
    EAS_SPELLING_WRONG = 7, /* a byte or a percent form of the spelling is wrong */
    EAS_NAME_LENGTH = 8,    /* the name's length, not its spelling's, is 0 or over 40 */
    EAS_NAME_ABSENT = 9,    /* no record has it */
    /* a state */
    EAS_FIRST_OUT_OF_RANGE = 10,   /* the first value is out of its range */
    EAS_DENSITY_OUT_OF_RANGE = 11, /* the density is out of its range */
    EAS_Z_OUT_OF_RANGE = 12,   /* a temperature's z is below -1,000,000 or above 3,000,000; an entropy's is above its
                                  band's limit, in a join above that of either edge */
    EAS_FIT_OUT_OF_RANGE = 13, /* a temperature's G is below 0 or above 19,600,000,000, in a join at either edge */
    EAS_NOT_FITTED = 17,       /* a pressure, in place of 12 and 13 and in a join by either edge: its z is above its
                                  band's limit, or an exponential that is taken from one has an exponent less than 0.05
                                  from 0; else its gamma is not above 1.01, or is 2 or more */
    /* a sheet that eas_back would make, after the sheet's own */
    EAS_REMARK_NOT_EMPTY = 18, /* a record has a remark, which version 1 does not hold */
    /* a sheet that eas_add would make, after the sheet's own, 7, 8, and 6 and 16 of the new state */
    EAS_SHEET_FULL = 19, /* it would be over 65,536 bytes */
    /* a text */
    EAS_ROOM_TOO_SHORT = 14, /* the room is shorter than the text */
    EAS_LIST_TOO_LONG = 15   /* the name list is over 65,536 bytes */
};

/* A refusal in words. */
static inline const char *eas_reason(uint32_t number) {
    switch (number) {
    case 0:
        return "not refused";
    case EAS_SHEET_TOO_LONG:
        return "the sheet is, or would become, over 65,536 bytes";
    case EAS_NOT_A_SHEET:
        return "not a sheet: under 7 bytes, or it does not begin with EAS";
    case EAS_VERSION_UNKNOWN:
        return "the sheet's version is not one that is read here";
    case EAS_RECORD_CUT:
        return "bytes are missing from a record, or left over after the last";
    case EAS_RECORD_NAME_LENGTH:
        return "a record's name has no bytes or over 40";
    case EAS_KIND_UNKNOWN:
        return "the kind is unknown";
    case EAS_SPELLING_WRONG:
        return "a byte or a percent form of the spelled name is wrong";
    case EAS_NAME_LENGTH:
        return "the name has no bytes or over 40";
    case EAS_NAME_ABSENT:
        return "no state of the sheet has this name";
    case EAS_FIRST_OUT_OF_RANGE:
        return "pressure outside 1e-6 to 1e11 Pa, or energy outside 7840.84 to 1e9 J/kg";
    case EAS_DENSITY_OUT_OF_RANGE:
        return "density outside 1.292e-7 to 1292 kg/m3";
    case EAS_Z_OUT_OF_RANGE:
        return "pressure or energy outside what the fits cover at this density";
    case EAS_FIT_OUT_OF_RANGE:
        return "the fitted temperature is outside 273.15 to about 24,900 K";
    case EAS_NOT_FITTED:
        return "energy outside what the pressure fits cover at this density";
    case EAS_REMARK_NOT_EMPTY:
        return "a state has a remark, which version 1 of the sheet does not hold";
    case EAS_SHEET_FULL:
        return "with one more state the sheet would be over 65,536 bytes";
    case EAS_ROOM_TOO_SHORT:
        return "the room for the text is too short";
    case EAS_LIST_TOO_LONG:
        return "the name list is over 65,536 bytes";
    case EAS_NAME_REPEATED:
        return "the name was seen earlier in the sheet";
    default:
        return "unknown refusal";
    }
}

/* One fit: of a temperature the exponent G of its ratio to 273.15 K, of a pressure gamma, and the weight W of the fit's
 * second part, all in units of 10^-10. W is 0 where a fit has no second part; it is from 0 to 10^10 but where a
 * pressure's fit takes an exponential from one: there it may be outside. value is 0 but in a join that is not refused:
 * then it is that edge's own, in the unit of the answer.
 *
 * W is within 2 units of the ideal weight; G is within 4,000 units and gamma within 100,000 of the exact fit at the
 * logarithms carried, in a join at the edge's. A fitted temperature, in a join each edge's, is 273.15 K times ten to
 * the whole millionths of G: to compare neighbours that are not joined, difference G, which is 10,000 times finer. */
typedef struct {
    int64_t fit, weight, value;
} eas_edge;

enum { EAS_CARRIES_LOGS = 1, EAS_CARRIES_X = 2, EAS_CARRIES_LOW = 4, EAS_CARRIES_HIGH = 8, EAS_CARRIES_VALUE = 16 };

/* Every field that is not carried is 0, so that two answers compare field by field. A refusal 12 carries the
 * logarithms, a refusal 13 the fit too, in a join both edges' fits and no value of either; a refusal 17 by gamma is as
 * 13, any other 17 as 12; the others carry nothing. x is carried by temperatures alone. */
typedef struct {
    uint32_t number;    /* 0, or the refusal's number */
    uint32_t letter;    /* 'T' temperature, 'S' entropy, 'P' pressure; 0 where nothing was worked out */
    uint32_t carries;   /* which of the fields below hold something: the sum of EAS_CARRIES_ values */
    int64_t x, y, z;    /* logarithms in whole millionths */
    int64_t value;      /* temperature in 10^-6 K, entropy in 10^-4 J/(kg K), or pressure in 10^-6 Pa */
    eas_edge low, high; /* a single fit stands in low, those of a join in both: low is at the smaller density; a perfect
                           gas's temperature and an entropy have none */
} eas_answer;

/* A record of a sheet. Its name is the `length` bytes from `start` on, which lie in the sheet, not spelled. Refused:
 * all 0 but the number. */
typedef struct {
    uint32_t number, kind;
    uint64_t first, second; /* in the units of the kind */
    size_t start, length;
} eas_record;

/* A part of a sheet: the `length` bytes from `start` on, which lie in the sheet. Refused: all 0 but the number. */
typedef struct {
    uint32_t number;
    size_t start, length;
} eas_part;

/* number 0: the first `length` bytes of the room were written. Refused: length is 0. */
typedef struct {
    uint32_t number;
    size_t length;
} eas_text;

/* A walk over a sheet's records, which the host keeps: how many it has given, and how many the sheet had when it began.
 * Any two numbers may be handed in. */
typedef struct {
    uint32_t given, count;
} eas_walk;

/* A walk that begins. Refused: the walk is 0, 0. */
typedef struct {
    uint32_t number;
    eas_walk walk;
} eas_begun;

/* number 0: the first `length` bytes of the room are the line of the record that was given, and the walk has given one
 * more; where length is 0 there was none left, and the walk is as it was. Refused: length is 0, the walk is as it was.
 */
typedef struct {
    uint32_t number;
    size_t length;
    eas_walk walk;
} eas_step;

/* across is y + 7,000,000: the decimal logarithm of the density over 1.292e-7 kg/m3, in millionths, 0 to 10,000,000.
 * up is the answer's value, of a pressure whole pascals, rounded down. Both are whole numbers. */
typedef struct {
    double across, up;
} eas_point;

/* A plot mark. blank 0: a point; else the refusal's number, and the point is 0, 0. */
typedef struct {
    uint32_t blank;
    eas_point point;
} eas_mark;

/* Checks a sheet: 0, or 1 to 6 or 16. */
uint32_t eas_check(const uint8_t *sheet, size_t n);

/* Finds a spelled name: its record, or 1 to 9 or 16. */
eas_record eas_find(const uint8_t *sheet, size_t n, const uint8_t *spelled, size_t m);

/* The remark of a spelled name's record, bytes of any value: 0, or 1 to 9 or 16. An empty remark starts behind its
 * length byte; in version 1, which has no remarks, an empty part starts behind the record. */
eas_part eas_remark(const uint8_t *sheet, size_t n, const uint8_t *spelled, size_t m);

/* Record i of a sheet, from 0, in the sheet's order: 1 to 6 or 16, then 9 where there is none. Every call checks the
 * sheet; the records are i = 0, 1, ... until 9. */
eas_record eas_record_at(const uint8_t *sheet, size_t n, size_t i);

/* Finds a spelled name and works out its state: 0, or 1 to 13, 16 or 17. */
eas_answer eas_search(const uint8_t *sheet, size_t n, const uint8_t *spelled, size_t m);

/* Works out a state of a kind that stands in no sheet: 0, or 6 (every kind over 255 too), 10 to 13 or 17. */
eas_answer eas_evaluate(uint32_t kind, uint64_t first, uint64_t second);

/* The plot mark of a spelled name: a point, or blank with 1 to 13, 16 or 17. */
eas_mark eas_plot(const uint8_t *sheet, size_t n, const uint8_t *spelled, size_t m);

/* The listing line of a spelled name, with its newline: "NAME LETTER Y Z VALUE" or "NAME ! NUMBER", the letter and the
 * value being the answer's, the name spelled with upper-case digits, or ? where it cannot be read. A refused search is
 * a line too: the only refusal is 14. Every line fits EAS_LINE_ROOM bytes; with less room than the line has, call again
 * with that much. */
eas_text eas_line(const uint8_t *sheet, size_t n, const uint8_t *spelled, size_t m, uint8_t *out, size_t room);

/* The listing program's whole text for a run list: a line, as eas_line has it, for each spelled name, which stand one a
 * line (a last one without newline counts unless empty). A refused sheet is the one line "sheet ! NUMBER", else a list
 * over 65,536 bytes the one line "list ! 15". The only refusal is 14, and then nothing is written: EAS_LINE_ROOM bytes
 * for each name, and for no name too, are always enough. The sheet is checked once for all names. */
eas_text eas_list(const uint8_t *sheet, size_t n, const uint8_t *names, size_t m, uint8_t *out, size_t room);

/* Spells a name: 8, or 14 where the room is shorter than the spelling; EAS_SPELLING_ROOM bytes are always enough. */
eas_text eas_spell(const uint8_t *name, size_t n, uint8_t *out, size_t room);

/* Reads a spelled name: 7 or 8, or 14 where the room is shorter than the name; EAS_NAME_ROOM bytes are always enough.
 */
eas_text eas_read(const uint8_t *spelled, size_t n, uint8_t *out, size_t room);

/* Writes a sheet of version 1 in version 2, with empty remarks: 1 to 6 or 16 of the sheet, 3 for every version but 1;
 * then 1 where the result is over 65,536 bytes; then 14. The result has a byte more for each record: EAS_SHEET_ROOM
 * bytes are always enough. */
eas_text eas_forward(const uint8_t *sheet, size_t n, uint8_t *out, size_t room);

/* Writes a sheet of version 2 in version 1, for copies of the library before 2.4.0, which read no other: 1 to 6 or 16
 * of the sheet, 3 for every version but 2; then 18 where a remark is not empty; then 14. The result has a byte less for
 * each record. A copy that does not know a record's kind refuses the whole sheet with 6: kind 3 came with 2.2.0.
 *
 * What either writes is a sheet that this copy accepts, with the same names, kinds and values in the same order: every
 * other call that takes a sheet, eas_add aside, gives for the one what it gives for the other, the places of names and
 * remarks aside. Forward then back, and back then forward, return the same bytes. */
eas_text eas_back(const uint8_t *sheet, size_t n, uint8_t *out, size_t room);

/* Begins a walk over the records that a sheet of either version has now: 1 to 6 or 16. */
eas_begun eas_begin(const uint8_t *sheet, size_t n);

/* A step of a walk: 1 to 6 or 16 of the sheet; then nothing, length 0, where the walk has given as many records as it
 * counted or as the sheet has; then 14. Else the next record's listing line, as eas_line has it for that record's name:
 * the name spelled as eas_spell writes it; a state that is refused has the line "NAME ! NUMBER". A refusal leaves the
 * walk as it was: after 14 call again with EAS_LINE_ROOM bytes, which are always enough.
 *
 * Every step checks the sheet: a walk over the fullest one, 3,289 records, takes about 57 ms where eas_list takes 1.5
 * for all their names. A listing to which nothing is added goes by eas_list.
 *
 * That holds of names that nobody chose to make a sheet slow. The names of a sheet are indexed by a fixed hash, and
 * names can be chosen that all fall together. Then every call that checks the sheet takes up to about 20 ms in place of
 * 0.02, a walk about 40 s, eas_list up to 0.4 s: so much the slowest sheets took that were found. */
eas_step eas_next(const uint8_t *sheet, size_t n, eas_walk walk, uint8_t *out, size_t room);

/* Writes a sheet of version 2 with one more record behind the others, its remark empty: 1 to 6 or 16 of the sheet, 3
 * for every version but 2; then of the new state 7 or 8, 6 (every kind over 255 too), 16 where a record has its name;
 * then 19 where the result is over 65,536 bytes; then 14. The values may be of any size: a state is judged when it is
 * worked out. The result has 19 bytes more and the name: EAS_SHEET_ROOM bytes are always enough.
 *
 * What it writes is an accepted sheet with the same records in the same places, and the new one: a search for the new
 * name finds it, every other search finds what it found. A walk that began on the sheet before goes on over the result
 * as if nothing had been added: the same lines in the same order, and the same end. One that begins on the result
 * covers the new record. */
eas_text eas_add(const uint8_t *sheet, size_t n, const uint8_t *spelled, size_t m, uint32_t kind, uint64_t first,
                 uint64_t second, uint8_t *out, size_t room);

#ifdef __cplusplus
}
#endif

#endif
