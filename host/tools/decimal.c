#include "decimal.h"

#include <inttypes.h>
#include <stdio.h>
#include <string.h>

/* No exponent that matters comes near this; one that is larger is held to it. Digits behind so many are only looked at
 * for whether they are zeros: units are fewer than 2^64, so that these come behind the point at which units end. */
enum { EXPONENT_MOST = 1000000, DIGITS_MOST = 22 };

__extension__ typedef unsigned __int128 wide;

static const wide MOST = (wide)1 << 126;

/* What was read: digits·10^exponent, and whether more than zeros followed. */
typedef struct {
    wide digits;
    int count;
    long exponent;
    bool goes_on;
} number;

static bool is_digit(char c) {
    return c >= '0' && c <= '9';
}

static void push_digit(number *x, unsigned digit) {
    if (x->count == DIGITS_MOST) {
        x->exponent++;
        x->goes_on |= digit > 0;
        return;
    }
    x->digits = 10 * x->digits + digit;
    x->count += x->digits > 0;
}

/* Reads the digits around a point. Zeros are held back until another digit follows, so that 1.2000 is as fine as 1.2.
 * Returns how many bytes were read, 0 where there is no digit. */
static size_t read_mantissa(const char *text, size_t n, bool comma, number *x) {
    size_t at = 0, digits = 0;
    long zeros = 0;
    bool after_point = false;
    for (; at < n; at++) {
        bool is_point = !after_point && (text[at] == '.' || (comma && text[at] == ','));
        if (!is_point && !is_digit(text[at]))
            break;
        after_point |= is_point;
        if (is_point)
            continue;
        digits++;
        x->exponent -= after_point;
        if (text[at] == '0') {
            zeros++;
            continue;
        }
        for (; zeros > 0 && x->digits > 0; zeros--)
            push_digit(x, 0);
        push_digit(x, (unsigned)(text[at] - '0'));
        zeros = 0;
    }
    x->exponent += zeros;
    return digits > 0 ? at : 0;
}

/* Reads "e" with a signed whole number, up to the text's end. */
static bool read_exponent(const char *text, size_t n, number *x) {
    size_t at = 1;
    bool negative = n > 1 && text[1] == '-';
    long exponent = 0;
    if (n > 1 && (text[1] == '-' || text[1] == '+'))
        at = 2;
    if (at >= n || (text[0] != 'e' && text[0] != 'E'))
        return false;
    for (; at < n; at++) {
        if (!is_digit(text[at]))
            return false;
        if (exponent < EXPONENT_MOST)
            exponent = 10 * exponent + (text[at] - '0');
    }
    x->exponent += negative ? -exponent : exponent;
    return true;
}

/* Whether a number that is cut behind its digits could be nearer to either of two units: its last digit is worth `step`
 * in `bottom`ths of a unit, of which it has `rest` behind its whole ones. */
static bool is_open(wide rest, wide step, wide bottom) {
    return 2 * rest < bottom && 2 * (rest + step) > bottom;
}

/* Makes whole units of a number that is not 0. */
static decimal_verdict count_units(const number *x, const number_form *form, uint64_t *units) {
    wide top = x->digits * form->over, bottom = form->under;
    long shift = x->exponent + (long)form->decimals;
    for (; shift > 0 && top <= MOST / 10; shift--)
        top *= 10;
    for (; shift < 0 && bottom <= MOST / 10; shift++)
        bottom *= 10;
    wide whole = shift < 0 ? 0 : top / bottom, rest = shift < 0 ? 0 : top % bottom;
    if (shift > 0 || whole > UINT64_MAX)
        return DECIMAL_TOO_LARGE;
    *units = (uint64_t)whole;
    if (rest == 0 && shift == 0 && !x->goes_on)
        return DECIMAL_READ;
    if (!form->round || (x->goes_on && is_open(rest, form->over, bottom)))
        return DECIMAL_TOO_FINE;
    if (2 * rest < bottom)
        return DECIMAL_ROUNDED;
    *units += 1;
    return *units == 0 ? DECIMAL_TOO_LARGE : DECIMAL_ROUNDED;
}

decimal_verdict read_number(const char *text, size_t n, const number_form *form, uint64_t *units) {
    number x = {0};
    size_t at = n > 0 && text[0] == '+' ? 1 : 0, length = read_mantissa(text + at, n - at, form->comma, &x);
    at += length;
    if (length == 0 || (at < n && !read_exponent(text + at, n - at, &x)))
        return DECIMAL_WRONG;
    *units = 0;
    return x.digits == 0 ? DECIMAL_READ : count_units(&x, form, units);
}

decimal_verdict read_decimal(const char *text, size_t n, unsigned decimals, uint64_t *units) {
    return read_number(text, n, &(number_form){.decimals = decimals, .over = 1, .under = 1}, units);
}

void write_decimal(char out[DECIMAL_ROOM], uint64_t units, unsigned decimals) {
    uint64_t one = 1;
    for (unsigned i = 0; i < decimals; i++)
        one *= 10;
    int length = snprintf(out, DECIMAL_ROOM, "%" PRIu64 ".%0*" PRIu64, units / one, (int)decimals, units % one);
    while (out[length - 1] == '0')
        out[--length] = 0;
    if (out[length - 1] == '.')
        out[length - 1] = 0;
}

void write_value(char out[DECIMAL_ROOM], int64_t units, unsigned decimals) {
    char text[DECIMAL_ROOM];
    write_decimal(text, units < 0 ? 0 - (uint64_t)units : (uint64_t)units, decimals);
    snprintf(out, DECIMAL_ROOM, "%s%.30s", units < 0 ? "-" : "", text);
}
