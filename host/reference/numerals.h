/* The coefficients that source document 000 prints, digit for digit, and where each piece ends. */
#ifndef REFERENCE_NUMERALS_H
#define REFERENCE_NUMERALS_H

#include <stdbool.h>
#include <stdint.h>

enum { BANDS = 3, PIECES = 6, BICUBIC_TERMS = 10, EXPONENT_TERMS = 4 };

/* What is fitted by pieces: the logarithm of the temperature, and gamma for the pressure. */
typedef enum { TEMPERATURE, PRESSURE, FITTED } fitted_property;

typedef struct {
    int label;     /* of the listing, 0 where the band has no such piece */
    int64_t upper; /* last Z of the piece, in millionths; of a band's last one the largest Z that is fitted */
    const char *a[BICUBIC_TERMS], *b[BICUBIC_TERMS], *exponent[EXPONENT_TERMS]; /* b[0] is null where there is no B */
    bool minus;       /* B is divided by 1 - exp and not by 1 + exp */
    const char *kept; /* how far from 0 the exponent may go; null where nothing keeps it */
} printed_piece;

extern const printed_piece printed_pieces[FITTED][BANDS][PIECES];
extern const char *const printed_entropy[BANDS][BICUBIC_TERMS];

/* A numeral as whole units of 10^-10; ends the program where it is no whole number of them. */
int64_t numeral_units(const char *numeral);

#endif
