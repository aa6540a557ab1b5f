/* What the exact reference says of a state: where it lies and what is to be shown. Last digits that document 01 leaves
 * free are taken as the nearest ones: they say which check looks at a state, and reference/answer.h judges it. */
#ifndef CHECKLIST_RIGHT_H
#define CHECKLIST_RIGHT_H

#include <stdbool.h>

#include "airstate.h"

typedef enum { NO_EDGE, LOWER_DENSITY_EDGE, UPPER_DENSITY_EDGE } density_edge;

/* Of the strip around a density edge. */
typedef enum { THINNER, INSIDE, DENSER } strip_side;

/* The density ranges below and above an edge; the ways in which a sign is lost: at the thinner end of a join, at the
 * denser one, at both. Outside of a join the first and the last are the same, and the second is right. */
enum { RANGES = 2, LOST_SIGNS = 3 };

typedef struct {
    uint32_t number;   /* 0, or the refusal that is due */
    double value;      /* kelvin, J/(kg K) or pascal; 0 for a refusal */
    density_edge edge; /* the density edge whose strip the state is in or beside, if it is not refused */
    strip_side side;
    bool fitted;                  /* a temperature that is not a perfect gas's, or a pressure */
    bool joined;                  /* a fitted one inside a strip */
    bool blended;                 /* its fit, or one of both, passes from one curve to a second one */
    double weight;                /* of the second curve, mostly 0 to 1; in a join that at the thinner end */
    double one_range[RANGES];     /* near an edge, the value by the curves of one density range alone */
    double sign_lost[LOST_SIGNS]; /* the wrong value with a sign lost in the weight */
    double end_densities; /* the wrong joined pressure whose ends have the densities of the strip's ends, else 0 */
} right_state;

right_state right_of(const eas_record *record);

/* Whether two values are as one: the free digits move a value by less. */
bool same_value(double a, double b);

#endif
