/* A figure as PNG or PDF by cairo, its text by Pango. It is kept until it is finished, so that a failure leaves no part
 * of a file. */
#include <cairo-pdf.h>
#include <cairo.h>
#include <pango/pangocairo.h>
#include <stdio.h>
#include <stdlib.h>
#include <string.h>

#include "common.h"
#include "figure.h"
#include "options.h"

typedef struct {
    figure base;
    const char *path;
    FILE *file;
    char *bytes;
    size_t n;
    cairo_t *cairo;
    bool pdf;
    double page_width, page_height; /* of pages of A4, else 0 */
    unsigned pages;
    uint32_t lacking; /* the first letter that no font has, else 0 */
} drawing;

/* A page of A4 on its side, in points. */
static const double A4_WIDTH = 841.89, A4_HEIGHT = 595.28;

/* What cairo writes goes to the drawing's bytes. */
static cairo_status_t write_part(void *file, const unsigned char *bytes, unsigned n) {
    return fwrite(bytes, 1, n, file) == n ? CAIRO_STATUS_SUCCESS : CAIRO_STATUS_WRITE_ERROR;
}

static cairo_t *cairo_of(figure *f) {
    return ((drawing *)f)->cairo;
}

static void set_ink(cairo_t *c, colour ink) {
    cairo_set_source_rgb(c, ink.red, ink.green, ink.blue);
}

static void set_pen(cairo_t *c, pen p) {
    static const double dashes[] = {4, 3};
    set_ink(c, p.ink);
    cairo_set_line_width(c, p.width);
    cairo_set_dash(c, dashes, p.dashed ? 2 : 0, 0);
}

static void trace(cairo_t *c, const point *points, size_t n) {
    cairo_new_path(c);
    for (size_t i = 0; i < n; i++)
        cairo_line_to(c, points[i].x, points[i].y);
}

static void stroke(figure *f, const point *points, size_t n, pen p) {
    trace(cairo_of(f), points, n);
    set_pen(cairo_of(f), p);
    cairo_stroke(cairo_of(f));
}

static void fill(figure *f, const point *points, size_t n, colour ink) {
    trace(cairo_of(f), points, n);
    set_ink(cairo_of(f), ink);
    cairo_fill(cairo_of(f));
}

static void circle(figure *f, point centre, double radius, pen p) {
    cairo_t *c = cairo_of(f);
    cairo_new_path(c);
    cairo_arc(c, centre.x, centre.y, radius, 0, 2 * G_PI);
    set_pen(c, p);
    if (p.width > 0)
        cairo_stroke(c);
    else
        cairo_fill(c);
}

/* Widths are not rounded to whole dots, so that they hold for SVG viewers too. */
static PangoLayout *new_layout(void) {
    PangoContext *context = pango_font_map_create_context(pango_cairo_font_map_get_default());
    cairo_font_options_t *options = cairo_font_options_create();
    cairo_font_options_set_hint_metrics(options, CAIRO_HINT_METRICS_OFF);
    cairo_font_options_set_hint_style(options, CAIRO_HINT_STYLE_NONE);
    pango_cairo_context_set_font_options(context, options);
    pango_context_set_round_glyph_positions(context, FALSE);
    cairo_font_options_destroy(options);
    return pango_layout_new(context);
}

/* One layout for the whole program; its words and size change. */
static PangoLayout *layout_of(const char *words, double size, bool bold) {
    static PangoLayout *layout;
    static PangoFontDescription *font;
    if (!layout) {
        layout = new_layout();
        font = pango_font_description_from_string(FONTS);
    }
    pango_font_description_set_absolute_size(font, size * PANGO_SCALE);
    pango_font_description_set_weight(font, bold ? PANGO_WEIGHT_BOLD : PANGO_WEIGHT_NORMAL);
    pango_layout_set_font_description(layout, font);
    pango_layout_set_text(layout, words, -1);
    return layout;
}

static double width_of(PangoLayout *layout) {
    PangoRectangle logical;
    pango_layout_get_extents(layout, NULL, &logical);
    return (double)logical.width / PANGO_SCALE;
}

double text_width(const char *words, double size, bool bold) {
    return width_of(layout_of(words, size, bold));
}

/* The first letter of a text that no font has, which would be drawn as a box; 0 where there is none. */
static uint32_t letter_lacking(const char *words, double size, bool bold) {
    if (pango_layout_get_unknown_glyphs_count(layout_of(words, size, bold)) == 0)
        return 0;
    for (const char *at = words; *at; at = g_utf8_next_char(at)) {
        char letter[8] = "";
        memcpy(letter, at, (size_t)(g_utf8_next_char(at) - at));
        if (pango_layout_get_unknown_glyphs_count(layout_of(letter, size, bold)) > 0)
            return g_utf8_get_char(at);
    }
    return 0;
}

/* The Debian package whose fonts have a letter. */
static const char *package_of(uint32_t letter) {
    bool is_eastern = (letter >= 0x2E80 && letter <= 0xD7FF) || (letter >= 0xF900 && letter <= 0xFAFF) ||
                      (letter >= 0xFF00 && letter <= 0xFFEF) || (letter >= 0x20000 && letter <= 0x3FFFF);
    return letter < 0x250 || (letter >= 0x2070 && letter <= 0x209F) ? "fonts-dejavu-core"
           : is_eastern                                             ? "fonts-noto-cjk"
           : letter >= 0x1F000 && letter <= 0x1FAFF                 ? "fonts-noto-color-emoji"
                                                                    : "fonts-noto-core";
}

static void text(figure *f, point at, lettering l, const char *words) {
    cairo_t *c = cairo_of(f);
    drawing *d = (drawing *)f;
    d->lacking = d->lacking ? d->lacking : letter_lacking(words, l.size, l.bold);
    PangoLayout *layout = layout_of(words, l.size, l.bold);
    cairo_save(c);
    cairo_translate(c, at.x, at.y);
    if (l.upright)
        cairo_rotate(c, -G_PI / 2);
    set_ink(c, l.ink);
    cairo_move_to(c, -l.anchor * width_of(layout), -(double)pango_layout_get_baseline(layout) / PANGO_SCALE);
    pango_cairo_show_layout(c, layout);
    cairo_restore(c);
}

static void open_group(figure *f, const char *title) {
    (void)f;
    (void)title;
}

static void close_group(figure *f) {
    (void)f;
}

/* A page number in its corner, at the place where the page's own height ends. */
static void number_page(drawing *d, unsigned page) {
    char words[48];
    snprintf(words, sizeof words, "page %u of %u", page + 1, d->pages);
    text(&d->base, (point){d->page_width - 24, (page + 1) * d->page_height - 16},
         (lettering){11, {0.45, 0.45, 0.45}, 1, false, false}, words);
}

static void begin_page(figure *f, unsigned page) {
    drawing *d = (drawing *)f;
    if (page > 0)
        cairo_show_page(d->cairo);
    cairo_identity_matrix(d->cairo);
    cairo_scale(d->cairo, A4_WIDTH / d->page_width, A4_HEIGHT / d->page_height);
    cairo_translate(d->cairo, 0, -(double)page * d->page_height);
    number_page(d, page);
}

static int refuse_letter(const drawing *d) {
    char letter[8] = "";
    g_unichar_to_utf8(d->lacking, letter);
    return refuse("%s: no font that is installed has the letter %s (U+%04X): install the Debian package %s", d->path,
                  letter, d->lacking, package_of(d->lacking));
}

static int finish(figure *f) {
    drawing *d = (drawing *)f;
    cairo_surface_t *surface = cairo_surface_reference(cairo_get_target(d->cairo));
    cairo_status_t status = cairo_status(d->cairo);
    cairo_destroy(d->cairo);
    if (status == CAIRO_STATUS_SUCCESS && !d->pdf)
        status = cairo_surface_write_to_png_stream(surface, write_part, d->file);
    cairo_surface_finish(surface);
    if (status == CAIRO_STATUS_SUCCESS)
        status = cairo_surface_status(surface);
    cairo_surface_destroy(surface);
    int lost = fclose(d->file) ? refuse_file(d->path) : DONE;
    if (status != CAIRO_STATUS_SUCCESS)
        lost = refuse("%s: %s", d->path, cairo_status_to_string(status));
    if (!lost && d->lacking)
        lost = refuse_letter(d);
    if (!lost)
        lost = write_output(d->path, d->bytes, d->n);
    free(d->bytes);
    free(d);
    return lost;
}

figure *open_cairo(const char *path, double width, double height, bool pdf) {
    drawing *d = calloc(1, sizeof *d);
    FILE *file = d ? open_memstream(&d->bytes, &d->n) : NULL;
    if (!file) {
        refuse_file(path);
        free(d);
        return NULL;
    }
    cairo_surface_t *surface = pdf ? cairo_pdf_surface_create_for_stream(write_part, file, width, height)
                                   : cairo_image_surface_create(CAIRO_FORMAT_RGB24, (int)width, (int)height);
    d->base = (figure){stroke, fill, circle, text, open_group, close_group, begin_page, finish};
    d->path = path;
    d->file = file;
    d->cairo = cairo_create(surface);
    d->pdf = pdf;
    cairo_surface_destroy(surface); /* kept by the drawing */
    cairo_set_source_rgb(d->cairo, 1, 1, 1);
    cairo_paint(d->cairo);
    return &d->base;
}

figure *open_pages(const char *path, double width, double height, unsigned count) {
    figure *f = open_cairo(path, A4_WIDTH, A4_HEIGHT, true);
    drawing *d = (drawing *)f;
    if (!f)
        return NULL;
    d->page_width = width;
    d->page_height = height;
    d->pages = count;
    begin_page(f, 0);
    return f;
}
