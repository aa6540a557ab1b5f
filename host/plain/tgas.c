#include "tgas.h"

#include <math.h>

static const double P0 = 1.0133e5, R0 = 1.292, E0 = 78408.4, T0 = 273.15, GASCON = 287.06;

int tgas_band(double y) {
    return y > MILLIONTHS(UPPER_EDGE) ? HIGH : y > MILLIONTHS(LOWER_EDGE) ? MIDDLE : LOW;
}

int tgas_strip_at(double y, tgas_strip *strip) {
    const double lower = MILLIONTHS(LOWER_EDGE), lower_half = MILLIONTHS(LOWER_HALF);
    const double upper = MILLIONTHS(UPPER_EDGE), upper_half = MILLIONTHS(UPPER_HALF);
    if (fabs(y - lower) < lower_half)
        *strip = (tgas_strip){lower - lower_half, lower + lower_half, LOW};
    else if (fabs(y - upper) < upper_half)
        *strip = (tgas_strip){upper - upper_half, upper + upper_half, MIDDLE};
    else
        return 0;
    return 1;
}

double tgas_line(const tgas_strip *strip, double y, double low, double high) {
    return low + (high - low) / (strip->high - strip->low) * (y - strip->low);
}

/* The listing's grouping of ten coefficients. */
#define BICUBIC(a, b, c, d, e, f, g, h, i, j)                                                                          \
    ((a) + (b)*y + ((c) + (d)*y) * z + ((e) + (f)*z + (g)*y) * y * y + ((h) + (i)*y + (j)*z) * z * z)

#define EXPONENT(c1, c2, c3, c4) ((c1) + (c2)*y + (c3)*z + (c4)*y * z)

static inline tgas_parts single(double a) {
    return (tgas_parts){a, 0, 0, 0};
}

static inline tgas_parts weighted(double a, double b, double exponent) {
    return (tgas_parts){a, b, exponent, 1};
}

static inline tgas_parts weighted_minus(double a, double b, double exponent) {
    return (tgas_parts){a, b, exponent, -1};
}

/* Labels 310 to 340. */
static inline tgas_parts low_parts(double y, double z) {
    if (z <= MILLIONTHS(piece_end[LOW][0]))
        return single(BICUBIC(1.44824e-01, 1.36744e-02, 1.17099e-01, -8.22299e-02, -6.75303e-04, -1.47314e-03,
                              -7.90851e-05, 1.3937, 6.83066e-02, -6.65673e-01));
    if (z <= MILLIONTHS(piece_end[LOW][1]))
        return weighted(BICUBIC(-9.325, -9.32017e-01, 2.57176e01, 1.61292, -3.00242e-02, 2.62959e-02, -2.77651e-04,
                                -2.1662e01, -6.81431e-01, 6.26962),
                        BICUBIC(-3.38534, 1.82594e-01, 1.84928e-01, -7.01109e-01, 1.10150e-02, -1.60570e-02,
                                1.57701e-05, 5.4702, 4.11624e-01, -2.81498),
                        EXPONENT(-3.887015e01, -2.908228e01, 4.070557e01, 2.682347e01));
    if (z <= MILLIONTHS(piece_end[LOW][2]))
        return weighted(BICUBIC(-1.93082e01, -1.54557, 3.69035e01, 1.92214, -3.59027e-02, 2.31827e-02, -2.01327e-04,
                                -2.20440e01, -5.80935e-01, 4.43367),
                        BICUBIC(-3.83069, 1.32864e-01, -3.91902, -6.79564e-01, 6.06341e-04, -8.12997e-03, -1.61012e-04,
                                7.24632, 3.15461e-01, -2.17879),
                        EXPONENT(2.08e01, -2.56e01, 1.0, 1.80e01));
    return weighted(BICUBIC(-2.59721e01, -1.77419, 3.62495e01, 1.55383, -4.51359e-02, 2.43648e-02, 1.2804e-04,
                            -1.59988e01, -3.17807e-01, 2.40584),
                    BICUBIC(-1.81433e01, 1.54896e-01, 1.26582e01, -3.66275e-01, 3.24496e-02, -1.66385e-02, 3.02177e-04,
                            -1.41759, 1.11241e-01, -3.10983e-01),
                    EXPONENT(1.115884e02, -6.452606, -5.337863e01, 2.026986));
}

/* Labels 360 to 390. */
static inline tgas_parts middle_parts(double y, double z) {
    if (z <= MILLIONTHS(piece_end[MIDDLE][0]))
        return single(BICUBIC(2.94996e-02, 7.24997e-03, 7.81783e-01, -3.27402e-02, 3.23357e-04, -9.69989e-04,
                              -8.93240e-06, 3.95198e-01, 2.92926e-02, -2.12182e-01));
    if (z <= MILLIONTHS(piece_end[MIDDLE][1]))
        return weighted(BICUBIC(-5.53324, -3.53749e-01, 1.63638e01, 5.87547e-01, -1.16081e-02, 7.99571e-03,
                                -2.79316e-04, -1.41239e01, -2.35146e-01, 4.28891),
                        BICUBIC(9.07979, 1.01308, -2.29428e01, -1.52122, 3.78390e-02, -2.63115e-02, 5.46402e-04,
                                1.95657e01, 5.73839e-01, -5.63057),
                        EXPONENT(7.619803e01, -1.501155e01, -6.770845e01, 1.273147e01));
    if (z <= MILLIONTHS(piece_end[MIDDLE][2]))
        return weighted(BICUBIC(-1.13598e01, -1.02049, 2.22793e01, 1.24038, -3.10771e-02, 1.92551e-02, -2.69140e-04,
                                -1.31512e01, -3.62875e-01, 2.64544),
                        BICUBIC(8.72852, 1.27564, -1.79172e01, -1.52051, 4.91264e-02, -2.81731e-02, 5.23383e-04,
                                1.16719e01, 4.45413e-01, -2.45584),
                        EXPONENT(1.84792e02, 9.583443, -1.020835e02, -4.166727));
    return weighted(BICUBIC(-1.76079e01, -1.26579, 2.48544e01, 1.09442, -3.65534e-02, 1.54346e-02, -4.59822e-04,
                            -1.08166e01, -2.27803e-01, 1.60641),
                    BICUBIC(2.60669e01, 2.31791, -3.22433e01, -1.82645, 4.94621e-02, -1.85542e-02, 5.04815e-04,
                            1.33829e01, 3.59744e-01, -1.86517),
                    EXPONENT(3.093755e02, 1.875018e01, -1.375004e02, -8.333418));
}

/* Labels 410 to 430. */
static inline tgas_parts high_parts(double y, double z) {
    if (z <= MILLIONTHS(piece_end[HIGH][0]))
        return single(BICUBIC(-2.94081e-03, 5.73915e-04, 9.88883e-01, -3.71241e-03, 1.12387e-04, -3.76528e-04,
                              1.76192e-05, 2.86656e-02, 4.56059e-03, -1.99498e-02));
    if (z <= MILLIONTHS(piece_end[HIGH][1]))
        return weighted(BICUBIC(1.32396, 8.52771e-02, -3.24257, -2.00937e-01, 5.68146e-03, -6.85856e-03, 1.98366e-04,
                                4.53823, 1.18123e-01, -1.6246),
                        BICUBIC(-5.26673e-01, -1.58691e-01, 2.61600, 3.16356e-01, -1.90755e-02, 1.70124e-02,
                                -5.58398e-04, -3.3793, -1.52212e-01, 1.30757),
                        EXPONENT(1.442206e02, -2.544727e01, -1.277055e02, 2.236647e01));
    return weighted(BICUBIC(-1.60643, -5.07368e-02, 3.95872, 3.69383e-02, -1.59378e-03, 1.06057e-03, 6.53278e-05,
                            -1.71201, 9.25124e-03, 2.71039e-01),
                    BICUBIC(1.80476e01, 1.62964, -2.73124e01, -1.57430, 5.85277e-02, -2.77313e-02, 1.16146e-03,
                            1.36342e01, 3.70714e-01, -2.23787),
                    EXPONENT(1.292515e02, 1.360552, -7.07482e01, 1.360532));
}

tgas_parts tgas1_parts(int band, double y, double z) {
    return band == LOW ? low_parts(y, z) : band == MIDDLE ? middle_parts(y, z) : high_parts(y, z);
}

/* The exponent of label 230. */
static inline double kept(double exponent) {
    return exponent > 30 ? 30 : exponent < -30 ? -30 : exponent;
}

/* Labels 90 to 140. */
static inline tgas_parts low_gamma(double y, double z) {
    if (z <= MILLIONTHS(pressure_end[LOW][0]))
        return single(1.3965);
    if (z <= MILLIONTHS(pressure_end[LOW][1]))
        return weighted_minus(BICUBIC(1.52792, -1.26953e-02, -6.13514e-01, -5.08262e-02, -5.49384e-03, 4.75120e-05,
                                      -3.18468e-04, 6.31835e-01, 3.34012e-02, -2.19921e-01),
                              BICUBIC(-4.96286e01, -1.17932e01, 6.91028e01, 4.40405e01, 5.09249, -1.40326, 2.08988e-01,
                                      1.37308e01, -1.78726e01, -1.86943e01),
                              24.60452 - 2.0 * y - 2.093022e01 * z);
    if (z <= MILLIONTHS(pressure_end[LOW][2]))
        return weighted(BICUBIC(-1.70333e01, -5.08545e-01, 2.46299e01, 4.45617e-01, -8.95298e-03, 2.29618e-03,
                                -2.89186e-04, -1.10204e01, -9.89727e-02, 1.62903),
                        BICUBIC(1.86797e01, 5.19662e-01, -2.41338e01, -4.34837e-01, 9.16089e-03, -1.52082e-03,
                                3.46482e-04, 1.02035e01, 9.70762e-02, -1.39460),
                        EXPONENT(-1.42762e02, -1.647088, 7.660312e01, 8.259346e-01));
    if (z <= MILLIONTHS(pressure_end[LOW][3]))
        return weighted(BICUBIC(2.24374, 1.03073e-01, -5.32238e-01, -5.59852e-02, 3.56484e-03, -1.01359e-04,
                                1.59127e-04, -4.80156e-02, 1.06794e-02, 3.66035e-02),
                        BICUBIC(-5.70378, -3.10056e-01, 5.01094, 1.80411e-01, -9.49361e-03, 1.94839e-03, -2.24908e-04,
                                -1.40331, -2.79718e-02, 1.20278e-01),
                        EXPONENT(1.139755e02, -4.985467, -4.223833e01, 2.009706));
    if (z <= MILLIONTHS(pressure_end[LOW][4]))
        return weighted(BICUBIC(-0.20807e02, 0.40197, 0.22591e02, -0.25660, -0.95833e-03, 0.23966e-02, 0.33671e-03,
                                -0.77174e01, 0.4606e-01, 0.878),
                        BICUBIC(-0.21737e03, -0.46927e01, 0.18101e03, 0.26621e01, -0.34759e-01, 0.64681e-02,
                                -0.70391e-03, -0.50019e02, -0.38381, 0.45795e01),
                        EXPONENT(0.4544373e03, 0.1250133e02, -0.1376001e03, -0.3641774e01));
    return single(BICUBIC(-5.22951e01, -4.00011e-01, 4.56439e01, 2.24484e-01, -3.73775e-03, 2.43161e-03, 2.24755e-04,
                          -1.29756e01, -2.79517e-02, 1.22998));
}

/* Labels 150 to 190. */
static inline tgas_parts middle_gamma(double y, double z) {
    if (z <= MILLIONTHS(pressure_end[MIDDLE][0]))
        return single(1.398);
    if (z <= MILLIONTHS(pressure_end[MIDDLE][1]))
        return weighted(BICUBIC(1.39123, -4.08321e-03, 1.42545e-02, 1.41769e-02, 2.57225e-04, 6.52912e-04, 8.46912e-05,
                                6.2555e-02, -7.83637e-03, -9.78720e-02),
                        BICUBIC(5.80955, -1.82302e-01, -9.62396, 1.79619e-01, -2.30518e-02, 1.18720e-02, -3.35499e-04,
                                5.27047, -3.65507e-02, -9.19897e-01),
                        14.2 - 10.0 * z);
    if (z <= MILLIONTHS(pressure_end[MIDDLE][2]))
        return weighted(BICUBIC(-1.20784, -2.57909e-01, 5.02307, 2.87201e-01, -9.95577e-03, 5.23524e-03, -1.45574e-04,
                                -3.20619, -7.50405e-02, 6.51564e-01),
                        BICUBIC(-6.62841, 2.77112e-02, 7.30762, -7.68230e-02, 7.19421e-03, -3.62463e-03, 1.62777e-04,
                                -2.33161, 3.04767e-02, 1.66856e-01),
                        EXPONENT(1.255324e02, 2.015335, -6.390747e01, -6.515225e-01));
    if (z <= MILLIONTHS(pressure_end[MIDDLE][3]))
        return weighted(BICUBIC(-2.26460, -7.82263e-02, 4.90497, 7.18096e-02, -3.06443e-03, 1.74209e-03, 2.84214e-05,
                                -2.24750, -1.31641e-02, 3.33658e-01),
                        BICUBIC(-1.47904e01, -1.76627e-01, 1.35036e01, 8.77280e-02, -2.13327e-03, 7.15487e-04,
                                7.30928e-05, -3.95372, -8.96151e-03, 3.63229e-01),
                        EXPONENT(1.788542e02, 6.317894, -6.756741e01, -2.460060));
    return weighted(BICUBIC(-1.66904e01, -2.58318e-01, 1.78350e01, 1.54898e-01, -9.71263e-03, 3.97740e-03, 9.04300e-05,
                            -5.94108, -2.01335e-02, 6.60432e-01),
                    BICUBIC(8.54690e01, 1.17554e01, -7.21760e01, -7.15723, -4.16150e-02, 1.38147e-02, 5.45184e-04,
                            2.01758e01, 1.08990, -1.86438),
                    EXPONENT(2.883262e02, 1.248536e01, -8.816985e01, -3.720309));
}

/* Labels 200 to 230. */
static inline tgas_parts high_gamma(double y, double z) {
    if (z <= MILLIONTHS(pressure_end[HIGH][0]))
        return single(1.3988);
    if (z <= MILLIONTHS(pressure_end[HIGH][1]))
        return single(BICUBIC(1.37062, 1.29673e-02, 1.11418e-01, -3.26912e-02, 1.06869e-03, -2.00286e-03, 2.38305e-04,
                              -1.06133e-01, 1.90251e-02, 3.02210e-03));
    if (z <= MILLIONTHS(pressure_end[HIGH][2]))
        return weighted(BICUBIC(3.43846e-02, -2.33584e-01, 2.85574, 2.59787e-01, -10.89927e-03, 4.23659e-03,
                                3.85712e-04, -1.94785, -6.73865e-02, 4.08518e-01),
                        BICUBIC(-4.20569, 1.33139e-01, 4.51236, -1.66341e-01, 1.67787e-03, -1.10022e-03, 3.06676e-04,
                                -1.35516, 4.91716e-02, 7.52509e-02),
                        EXPONENT(1.757042e02, -2.163278, -8.833702e01, 1.897543));
    return weighted(BICUBIC(-1.70633, -1.48403e-01, 4.23104, 1.37290e-01, -9.10934e-03, 3.85707e-03, 2.69026e-04,
                            -1.97292, -2.81830e-02, 2.95882e-01),
                    BICUBIC(3.41580e01, -1.89972e01, -4.0858e01, 1.30321e01, -8.01272e-01, 2.75121e-01, -1.77969e-04,
                            1.60826e01, -2.23386, -2.08853),
                    kept(EXPONENT(2.561323e02, 1.737089e02, -9.058890e01, -5.838803e01)));
}

tgas_parts tgas1_gamma_parts(int band, double y, double z) {
    return band == LOW ? low_gamma(y, z) : band == MIDDLE ? middle_gamma(y, z) : high_gamma(y, z);
}

double tgas1_fit(tgas_parts parts) {
    return parts.weighted ? parts.a + parts.b / (1 + exp(parts.exponent)) : parts.a;
}

double tgas1_gamma(tgas_parts parts) {
    return parts.weighted < 0 ? parts.a + parts.b / (1 - exp(parts.exponent)) : tgas1_fit(parts);
}

double tgas2_plain(int band, double y, double z) {
    if (z <= MILLIONTHS(PERFECT_ENTROPY_Z))
        return 6779.2004 + (2.5 * (z - 0.4) - y) * GASCON * 2.302585;
    if (band == LOW)
        return GASCON * BICUBIC(-9.91081e-01, -5.00277, 5.46521e01, 5.10144, 1.76206e-02, 2.12002e-02, 1.76358e-03,
                                -2.97001e01, -1.84915, 5.87892);
    if (band == MIDDLE)
        return GASCON * BICUBIC(1.0836e01, -4.55524, 2.96473e01, 3.90851, -2.05732e-03, 3.65982e-02, 5.23821e-03,
                                -1.67001e01, -1.44623, 3.98307);
    return GASCON * BICUBIC(2.01858e01, -3.13458, 1.03619e01, 1.87767, -1.72922e-01, 1.12174e-01, 1.28626e-02, -5.43557,
                            -8.71048e-01, 2.01789);
}

double tgas2_joined(double y, double z) {
    tgas_strip s;
    if (!tgas_strip_at(y, &s))
        return tgas2_plain(tgas_band(y), y, z);
    return tgas_line(&s, y, tgas2_plain(s.below, s.low, z), tgas2_plain(s.below + 1, s.high, z));
}

/* Temperature of a band's fit in kelvin. */
static double kelvin(int band, double y, double z) {
    return pow(10, tgas1_fit(tgas1_parts(band, y, z))) * T0;
}

double tgas1_temperature(uint64_t pressure, uint64_t density) {
    double p = (double)pressure * 1e-6, r = (double)density * 1e-11;
    double x = log10(p / P0), y = log10(r / R0), z = x - y;
    tgas_strip s;
    if (z <= MILLIONTHS(PERFECT_Z))
        return p / (GASCON * r);
    if (!tgas_strip_at(y, &s))
        return kelvin(tgas_band(y), y, z);
    return tgas_line(&s, y, kelvin(s.below, s.low, z), kelvin(s.below + 1, s.high, z));
}

/* P over E and R of a band's fit. */
static double less_one(int band, double y, double z) {
    return tgas1_gamma(tgas1_gamma_parts(band, y, z)) - 1;
}

double tgas1_pressure(uint64_t energy, uint64_t density) {
    double e = (double)energy * 1e-3, r = (double)density * 1e-11;
    double y = log10(r / R0), z = log10(e / E0);
    tgas_strip s;
    if (!tgas_strip_at(y, &s))
        return less_one(tgas_band(y), y, z) * e * r;
    return tgas_line(&s, y, less_one(s.below, s.low, z) * e * r, less_one(s.below + 1, s.high, z) * e * r);
}

double tgas2_entropy(uint64_t energy, uint64_t density) {
    double y = log10((double)density * 1e-11 / R0), z = log10((double)energy * 1e-3 / E0);
    return tgas2_joined(y, z);
}
