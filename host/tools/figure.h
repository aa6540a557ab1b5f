/* A page of lines, fills and text that is written as SVG, PNG or PDF. In SVG a name stays text, so that a viewer finds
 * it, and a group's title is shown under the pointer. */
#ifndef FIGURE_H
#define FIGURE_H

#include <stdbool.h>
#include <stddef.h>

typedef struct {
    double x, y;
} point;

typedef struct {
    double red, green, blue;
} colour;

typedef struct {
    colour ink;
    double width;
    bool dashed;
} pen;

typedef struct {
    double size;
    colour ink;
    double anchor; /* 0: the place is the text's left end, 0.5 its middle, 1 its right end */
    bool upright;  /* reads from bottom to top */
    bool bold;
} lettering;

typedef struct figure figure;
struct figure {
    void (*stroke)(figure *f, const point *points, size_t n, pen p);
    void (*fill)(figure *f, const point *points, size_t n, colour ink);
    void (*circle)(figure *f, point centre, double radius, pen p); /* a width of 0 fills it */
    void (*text)(figure *f, point at, lettering l, const char *text);
    void (*open_group)(figure *f, const char *title);
    void (*close_group)(figure *f);
    void (*begin_page)(figure *f, unsigned page); /* of those that open_pages was told, from 0, the first of itself */
    int (*finish)(figure *f); /* writes the file and frees the figure; tells a failure, 0 is success */
};

/* A figure for the path, by its ending; null where the ending is none of .svg, .png and .pdf, or nothing can be begun.
 */
figure *open_figure(const char *path, double width, double height);
figure *open_svg(const char *path, double width, double height);
figure *open_cairo(const char *path, double width, double height, bool pdf);

/* A figure for a path that can have pages: a PDF of as many pages of A4, which lie on their sides. The page behind one
 * begins where that one ends, at a multiple of the height. */
figure *open_pages(const char *path, double width, double height, unsigned count);

/* Whether a path has one of the endings that open_figure knows, and one that open_pages knows. */
bool is_figure_path(const char *path);
bool is_paged_path(const char *path);

/* The width of a text as PNG and PDF show it; SVG viewers come near it. */
double text_width(const char *words, double size, bool bold);

/* The fonts, the first that is there. */
#define FONTS "DejaVu Sans, Verdana, sans-serif"

void draw_line(figure *f, double x1, double y1, double x2, double y2, pen p);
void fill_box(figure *f, double x, double y, double w, double h, colour ink);

#endif
