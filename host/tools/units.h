/* The units in which a text may give a quantity, with their exact factors, and the headings that name them. */
#ifndef UNITS_H
#define UNITS_H

#include "kinds.h"
#include "rows.h"

/* One of it is over/under of the quantity's SI unit. */
typedef struct {
    const char *name;
    const quantity *of;
    uint64_t over, under;
} unit;

/* The unit that a heading names beside its quantity: "pressure_kPa", "Pressure [kPa]", "p (bar)"; null where it names
 * none. The quantity's word may be in either case, the unit's may not, since mPa and MPa differ. */
const unit *unit_called(field heading);

/* The SI unit of a quantity. */
const unit *si_unit(const quantity *q);

/* The heading that is right and nearest to one that is not, among those of units and `count` others; null where none is
 * near. A later call writes over it. */
const char *nearest_heading(field heading, const char *const *others, int count);

#endif
