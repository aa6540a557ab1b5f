/* The grid of a panel, with the numbers of its axes. */
#include <math.h>
#include <stdio.h>
#include <stdlib.h>

#include "limits.h"
#include "plot.h"

/* The step of 1, 2 or 5 times a power of ten that gives at most `most` ticks. */
static double tick_step(const axis *a, double most) {
    double rough = (a->high - a->low) / most, power = pow(10, floor(log10(rough)));
    return rough <= power ? power : rough <= 2 * power ? 2 * power : rough <= 5 * power ? 5 * power : 10 * power;
}

/* How an axis writes its numbers, all of them alike: plainly, or as parts of a power of ten, on an even axis of one
 * power for all. */
typedef struct {
    bool by_power, one_power;
    int power;
} tick_style;

static tick_style style_of(double low, double high, bool one_power) {
    double most = fmax(fabs(low), fabs(high));
    return (tick_style){most >= 1e6 || most < 1e-3 || (!one_power && low < 1e-3), one_power, (int)floor(log10(most))};
}

/* "10" with a power behind it, in raised digits. */
static size_t write_power(char *out, size_t room, int power) {
    static const char *const raised[] = {"⁰", "¹", "²", "³", "⁴", "⁵", "⁶", "⁷", "⁸", "⁹"};
    size_t n = (size_t)snprintf(out, room, "10%s", power < 0 ? "⁻" : "");
    if (abs(power) > 9)
        n += (size_t)snprintf(out + n, room - n, "%s", raised[abs(power) / 10 % 10]);
    return n + (size_t)snprintf(out + n, room - n, "%s", raised[abs(power) % 10]);
}

/* A number of an axis with as many decimals as a step of it has. */
static const char *tick_text(double value, double step, tick_style style) {
    static char text[64];
    if (fabs(value) < step / 1e6)
        value = 0;
    int power = !style.by_power ? 0 : style.one_power ? style.power : (int)floor(log10(fabs(value)) + 1e-9);
    double part = value / pow(10, power), part_step = step / pow(10, power);
    int decimals = part_step < 1 ? (int)ceil(-log10(part_step) - 1e-9) : 0;
    if (!style.by_power || value == 0) {
        snprintf(text, sizeof text, "%.*f", style.by_power ? 0 : decimals, value);
        return text;
    }
    size_t n =
        decimals == 0 && fabs(part - 1) < 1e-9 ? 0 : (size_t)snprintf(text, sizeof text, "%.*f·", decimals, part);
    write_power(text + n, sizeof text - n, power);
    return text;
}

/* A density with three digits. */
static const char *density_text(const chart *c, double across) {
    double standard = (double)STANDARD_DENSITY / 1e11, density = standard * pow(10, across);
    tick_style style = style_of(standard * pow(10, c->across.low), standard * pow(10, c->across.high), false);
    return tick_text(density, pow(10, floor(log10(density)) - 2), style);
}

static void draw_tick_across(figure *f, const chart *c, const panel *p, double value, double step) {
    double x = page_x(c, value);
    draw_line(f, x, p->top, x, p->bottom, (pen){light, 1, false});
    draw_line(f, x, p->bottom, x, p->bottom + 5, (pen){dark, 1, false});
    f->text(f, (point){x, p->bottom + 18}, (lettering){12, dark, 0.5, false, false},
            tick_text(value, step, (tick_style){0}));
    f->text(f, (point){x, p->bottom + 32}, (lettering){10, grey, 0.5, false, false}, density_text(c, value));
}

static void draw_tick_up(figure *f, const panel *p, double value, const char *text) {
    double y = page_y(p, value);
    draw_line(f, LEFT, y, RIGHT, y, (pen){light, 1, false});
    draw_line(f, LEFT - 5, y, LEFT, y, (pen){dark, 1, false});
    f->text(f, (point){LEFT - 9, y + 4}, (lettering){12, dark, 1, false, false}, text);
}

/* Five ticks a decade, three where there are over two decades, one where there are over six. */
static void draw_logarithmic_ticks(figure *f, const panel *p) {
    static const int digits[] = {1, 2, 3, 5, 7}, least[] = {1, 3, 5, 3, 5}; /* each where there are at least so many */
    int ticks = p->up.high < 200 * p->up.low ? 5 : p->up.high < 1e6 * p->up.low ? 3 : 1;
    tick_style style = style_of(p->up.low, p->up.high, false);
    for (int power = (int)floor(log10(p->up.low)); pow(10, power) < p->up.high; power++)
        for (int i = 0; i < 5; i++) {
            double value = digits[i] * pow(10, power);
            if (value > p->up.low && value < p->up.high && ticks >= least[i])
                draw_tick_up(f, p, value, tick_text(value, pow(10, power), style));
        }
}

static void draw_even_ticks(figure *f, const panel *p) {
    double step = tick_step(&p->up, 9);
    tick_style style = style_of(p->up.low, p->up.high, true);
    for (int i = (int)ceil(p->up.low / step); i * step <= p->up.high; i++)
        draw_tick_up(f, p, i * step, tick_text(i * step, step, style));
}

void draw_grid(figure *f, const chart *c, const panel *p) {
    double step = tick_step(&c->across, 12);
    for (int i = (int)ceil(c->across.low / step); i * step <= c->across.high; i++)
        draw_tick_across(f, c, p, i * step, step);
    if (p->up.logarithmic)
        draw_logarithmic_ticks(f, p);
    else
        draw_even_ticks(f, p);
}
