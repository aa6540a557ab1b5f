/* A figure as SVG, whose text is text. It is kept until it is finished, so that a failure leaves no part of a file. */
#include <math.h>
#include <stdio.h>
#include <stdlib.h>

#include "common.h"
#include "figure.h"

/* The size that most texts have. */
static const double COMMON_SIZE = 10;

typedef struct {
    figure base;
    const char *path;
    FILE *file;
    char *bytes;
    size_t n;
} svg;

static FILE *file_of(figure *f) {
    return ((svg *)f)->file;
}

static int level(double part) {
    return (int)lround(255 * part);
}

static void put_colour(FILE *file, const char *name, colour c) {
    fprintf(file, " %s=\"#%02x%02x%02x\"", name, (unsigned)level(c.red), (unsigned)level(c.green),
            (unsigned)level(c.blue));
}

static void put_pen(FILE *file, pen p) {
    fputs(" fill=\"none\"", file);
    put_colour(file, "stroke", p.ink);
    fprintf(file, " stroke-width=\"%g\"", p.width);
    if (p.dashed)
        fputs(" stroke-dasharray=\"4 3\"", file);
}

static void put_points(FILE *file, const point *points, size_t n) {
    fputs(" points=\"", file);
    for (size_t i = 0; i < n; i++)
        fprintf(file, "%s%.1f,%.1f", i > 0 ? " " : "", points[i].x, points[i].y);
    fputs("\"", file);
}

static void put_escaped(FILE *file, const char *text) {
    for (; *text; text++) {
        if (*text == '&')
            fputs("&amp;", file);
        else if (*text == '<')
            fputs("&lt;", file);
        else if (*text == '>')
            fputs("&gt;", file);
        else
            fputc(*text, file);
    }
}

static void stroke(figure *f, const point *points, size_t n, pen p) {
    FILE *file = file_of(f);
    fputs("<polyline", file);
    put_points(file, points, n);
    put_pen(file, p);
    fputs("/>\n", file);
}

static void fill(figure *f, const point *points, size_t n, colour ink) {
    FILE *file = file_of(f);
    fputs("<polygon", file);
    put_points(file, points, n);
    put_colour(file, "fill", ink);
    fputs("/>\n", file);
}

static void circle(figure *f, point centre, double radius, pen p) {
    FILE *file = file_of(f);
    fprintf(file, "<circle cx=\"%.1f\" cy=\"%.1f\" r=\"%g\"", centre.x, centre.y, radius);
    if (p.width > 0)
        put_pen(file, p);
    else
        put_colour(file, "fill", p.ink);
    fputs("/>\n", file);
}

static void text(figure *f, point at, lettering l, const char *words) {
    FILE *file = file_of(f);
    fprintf(file, "<text x=\"%.1f\" y=\"%.1f\"", at.x, at.y);
    if (fabs(l.size - COMMON_SIZE) > 0)
        fprintf(file, " font-size=\"%g\"", l.size);
    put_colour(file, "fill", l.ink);
    if (l.anchor > 0)
        fprintf(file, " text-anchor=\"%s\"", l.anchor < 1 ? "middle" : "end");
    if (l.bold)
        fputs(" font-weight=\"bold\"", file);
    if (l.upright)
        fprintf(file, " transform=\"rotate(-90 %.1f %.1f)\"", at.x, at.y);
    fputs(">", file);
    put_escaped(file, words);
    fputs("</text>\n", file);
}

static void open_group(figure *f, const char *title) {
    fputs("<g><title>", file_of(f));
    put_escaped(file_of(f), title);
    fputs("</title>\n", file_of(f));
}

static void close_group(figure *f) {
    fputs("</g>\n", file_of(f));
}

static void begin_page(figure *f, unsigned page) {
    (void)f;
    (void)page;
}

static int finish(figure *f) {
    svg *s = (svg *)f;
    fputs("</svg>\n", s->file);
    int lost = fclose(s->file) ? refuse_file(s->path) : write_output(s->path, s->bytes, s->n);
    free(s->bytes);
    free(s);
    return lost;
}

figure *open_svg(const char *path, double width, double height) {
    svg *s = calloc(1, sizeof *s);
    FILE *file = s ? open_memstream(&s->bytes, &s->n) : NULL;
    if (!file) {
        refuse_file(path);
        free(s);
        return NULL;
    }
    s->base = (figure){stroke, fill, circle, text, open_group, close_group, begin_page, finish};
    s->path = path;
    s->file = file;
    fputs("<?xml version=\"1.0\" encoding=\"UTF-8\"?>\n", file);
    fprintf(file,
            "<svg xmlns=\"http://www.w3.org/2000/svg\" width=\"%.0f\" height=\"%.0f\" viewBox=\"0 0 %.0f %.0f\""
            " font-family=\"" FONTS "\" font-size=\"%g\" xml:space=\"preserve\">\n",
            width, height, width, height, COMMON_SIZE);
    fputs("<rect width=\"100%\" height=\"100%\" fill=\"#ffffff\"/>\n", file);
    return &s->base;
}
