#include "complaints.h"

#include <stdarg.h>

#include "options.h"

static void tell(const complaints *c, const row *r) {
    refuse("%s: line %lu: %s", c->input, r->line, c->last);
}

bool complain(complaints *c, const row *r, const char *format, ...) {
    va_list values;
    va_start(values, format);
    vsnprintf(c->last, sizeof c->last, format, values);
    va_end(values);
    c->count++;
    if (c->count - c->fine <= COMPLAINTS_MOST)
        tell(c, r);
    else
        c->untold++;
    return false;
}

bool complain_of_digits(complaints *c, const row *r, const char *heading, const char *fault) {
    snprintf(c->last, sizeof c->last, "%s: %s; --round rounds to it", heading, fault);
    c->count++;
    if (c->fine++ == 0)
        tell(c, r);
    return false;
}

void tell_untold(const complaints *c) {
    if (c->fine > 1)
        refuse("%s: %lu more row%s such a number", c->input, c->fine - 1, c->fine == 2 ? " has" : "s have");
    if (c->untold > 0)
        refuse("%s: %lu more row%s wrong", c->input, c->untold, c->untold == 1 ? " is" : "s are");
}
