/* The five checks and the further lines: which states each looks at, and which faults it is charged with. */
#ifndef CHECKLIST_JUDGE_H
#define CHECKLIST_JUDGE_H

#include "checklist_ask.h"

/* The five checks, and further lines; OTHERS: states that no check looks at. */
enum { SIGNS, DIGITS, EDGES, TRANSITION, RANGE, CHECKS, REMARKS = CHECKS, CONVERSION, ADDITIONS, OTHERS, TALLIES };

/* What a check needs a state for; without one for each of its places it is not passed. */
enum {
    A_SIGN,
    A_NUMBER,
    BELOW_LOWER_STRIP, /* those of a strip stand in the order of strip_side */
    IN_LOWER_STRIP,
    ABOVE_LOWER_STRIP,
    BELOW_UPPER_STRIP,
    IN_UPPER_STRIP,
    ABOVE_UPPER_STRIP,
    BEFORE_MIDDLE,
    BEHIND_MIDDLE,
    OUT_OF_REACH,
    TOO_HOT,
    PLACES
};

/* The places of each check, a bit each. */
extern const unsigned check_places[TALLIES];

typedef enum {
    RIGHT,
    BY_REMARKS,    /* it is another where the sheet's remarks are taken away */
    BY_CONVERSION, /* it is right, but another where the sheet is converted to its other version */
    BY_ADDITION,   /* it is right, but another where states are added to the sheet */
    BY_ORDER,      /* it is right, but another where the sheet's states stand in reverse order */
    NOT_FOUND,     /* refused as a name that no state has, or missing from the run list */
    FOUND_ABSENT,  /* something is shown for a name that no state has */
    ANOTHERS,      /* another state's answer */
    UNDUE_VALUE,   /* a value where a refusal is due */
    NEIGHBOURS,    /* by the curves of the neighbouring density band */
    NOT_JOINED,    /* by the curves of one band in a strip */
    END_DENSITIES, /* a joined pressure with the densities of the strip's ends */
    SIGN_LOST,     /* with a sign lost in the weight */
    OTHERWISE,
    CAUSES
} cause;

/* What a way shows: a refusal, or the logarithm of the density ratio and the value, in an answer's units or, without Z,
 * in a mark's. */
typedef struct {
    bool readable, has_z;
    uint32_t number;
    int64_t y, z, value;
} shown;

shown shown_by(const asked_name *name, way w);

/* A name with what is wrong by each way. */
typedef struct {
    const asked_sheet *sheet;
    const asked_name *name;
    cause causes[WAYS];
} fault;

typedef struct {
    unsigned places;               /* of this check, a bit each */
    unsigned telling;              /* states that have one of them; of OTHERS, states that no check looks at */
    unsigned faulty, encoded;      /* names at fault; names that are encoded in the sheet */
    const named_state *example;    /* of `telling` */
    fault first;                   /* of `faulty` */
    const asked_sheet *encoded_in; /* the first of `encoded` */
    const asked_name *encoded_name;
    const asked_sheet *misconverted; /* the first sheet whose conversion is wrong as a whole, else null */
    const asked_sheet *misgrown;     /* the first to which a state is added wrongly, else null */
} tally;

/* The checks that look at a state, a bit each. */
unsigned checks_of(const asked_sheet *sheet, const named_state *s);

/* Those of them that a fault of an answer is charged to. */
unsigned charged_by_cause(unsigned looking, cause c);

/* What is wrong with a value of the state that is not right; the unit is that of its last digit, which is rounded down,
 * or 0. */
cause cause_by_value(double value, double unit, const right_state *right);

/* Adds a sheet to the tallies. */
void judge_sheet(const asked_sheet *sheet, tally tallies[TALLIES]);

/* The state other than the name's own whose answer this is; SIZE_MAX where there is none. */
size_t state_shown(const asked_sheet *sheet, const asked_name *name, const shown *s);

/* An answer's value, and what is shown of it, in kelvin, J/(kg K) or pascal. */
double in_units(const eas_record *record, int64_t value);
double shown_in_units(const eas_record *record, const shown *s);

#endif
