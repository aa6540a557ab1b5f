#include "pressure.h"

bool exponent_near_zero(wide q) {
    return -500000000 < q && q < 500000000;
}

bool gamma_beyond(int64_t gamma) {
    return gamma <= 10100000000 || gamma >= 20000000000;
}

static bool warned_at(int64_t y, int64_t z) {
    const fit_piece *piece = piece_at(PRESSURE, y, z);
    return z > fit_limit(PRESSURE, y) || (piece->minus && exponent_near_zero(exponent(piece, y, z)));
}

bool pressure_warned(int64_t y, int64_t z) {
    density_strip strip;
    if (!strip_of(y, &strip))
        return warned_at(y, z);
    return warned_at(strip.lower, z) || warned_at(strip.upper, z);
}

/* Up to 10^12·1.3·10^14·10^10, below 2^120. */
wide pressure_value(uint64_t energy, uint64_t density, int64_t gamma) {
    const wide one = 10000000000, scale = 1000000000000000000;
    return floor_divide((wide)energy * (wide)density * (gamma - one), scale);
}
