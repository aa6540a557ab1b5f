#include "checklist_words.h"

#include "utf8.h"

const char *const line_titles[TALLIES] = {
    [SIGNS] = "1. Names with slashes and spaces",
    [DIGITS] = "2. Names that are numbers",
    [EDGES] = "3. Density edges",
    [TRANSITION] = "4. Hot state in a transition",
    [RANGE] = "5. Outside the fitted range",
    [REMARKS] = "   Records and remarks",
    [CONVERSION] = "   Conversion to another version",
    [ADDITIONS] = "   States added during a walk",
    [OTHERS] = "   Every other state",
};

const char *const place_words[PLACES] = {
    [A_SIGN] = "a name with a slash, a space or another sign that is written as % and two digits",
    [A_NUMBER] = "a name of digits only that is not the number of its row, in the sheet or in reverse order",
    [BELOW_LOWER_STRIP] = "a hot state beside the strip at the lower density edge, a little thinner "
                          "(such as 18.868529 Pa, 0.00003812962 kg/m³)",
    [IN_LOWER_STRIP] = "a hot state on the lower density edge (such as 20.217993 Pa, 0.00004085663 kg/m³)",
    [ABOVE_LOWER_STRIP] = "a hot state beside the strip at the lower density edge, a little denser "
                          "(such as 21.66397 Pa, 0.00004377866 kg/m³)",
    [BELOW_UPPER_STRIP] = "a hot state beside the strip at the upper density edge, a little thinner "
                          "(such as 197577.753293 Pa, 0.39926616988 kg/m³)",
    [IN_UPPER_STRIP] = "a hot state on the upper density edge (such as 202179.930376 Pa, 0.40856627369 kg/m³)",
    [ABOVE_UPPER_STRIP] = "a hot state beside the strip at the upper density edge, a little denser "
                          "(such as 206889.305933 Pa, 0.41808300475 kg/m³)",
    [BEFORE_MIDDLE] = "a hot state in a transition, before its middle (such as 4347.484504 Pa, 0.00408566274 kg/m³)",
    [BEHIND_MIDDLE] = "a hot state in a transition, behind its middle (such as 4553.42348 Pa, 0.00408566274 kg/m³)",
    [OUT_OF_REACH] =
        "a pressure or energy that the fits do not cover at its density (such as 12756691.19771 Pa, 0.1292 kg/m³)",
    [TOO_HOT] = "a state whose fitted temperature is too high (such as 10133000 Pa, 0.1292 kg/m³)",
};

const char *const cause_words[CAUSES] = {
    [RIGHT] = "right",
    [BY_REMARKS] = "wrong: the sheet's remarks change what is shown",
    [BY_CONVERSION] = "right, but another where the sheet is converted to its other version",
    [BY_ADDITION] = "right, but another where states are added to the sheet",
    [BY_ORDER] = "right, but another where the sheet's states stand in reverse order",
    [NOT_FOUND] = "wrong: the sheet has this name",
    [FOUND_ABSENT] = "wrong: no state has this name",
    [ANOTHERS] = "wrong",
    [UNDUE_VALUE] = "wrong: a value means nothing here",
    [NEIGHBOURS] = "wrong: by the curve of the neighbouring density range",
    [NOT_JOINED] = "wrong: by the curve of one density range, not joined between two",
    [END_DENSITIES] = "wrong: joined with the densities of the strip's ends, not with the state's own",
    [SIGN_LOST] = "wrong: the two curves of the transition are weighed the wrong way round",
    [OTHERWISE] = "wrong",
};

void print_name(const uint8_t *spelled, size_t n) {
    read_name name = name_read(spelled, n);
    bool is_seen = is_text(name.bytes, name.length) && name.bytes[0] != ' ' && name.bytes[name.length - 1] != ' ';
    if (name.number || !is_seen)
        printf("%.*s (spelled)", (int)n, (const char *)spelled);
    else if (name.length == n)
        printf("%.*s", (int)n, (const char *)spelled);
    else
        printf("%.*s (spelled %.*s)", (int)name.length, (const char *)name.bytes, (int)n, (const char *)spelled);
}

void print_state_name(const named_state *s) {
    print_name(s->spelled.bytes, s->spelled.length);
}
