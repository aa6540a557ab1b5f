/* Twins of a sheet: the same one without its remarks, in its other version, with more states, and in reverse order.
 * Every name must show the same in them. */
#ifndef CHECKLIST_TWINS_H
#define CHECKLIST_TWINS_H

#include "checklist_ask.h"

/* Asks for all names in the twins, and notes where they show another. */
void ask_twins(asked_sheet *sheet);

#endif
