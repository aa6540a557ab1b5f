#include "figure.h"

#include <string.h>
#include <strings.h>

static bool has_ending(const char *path, const char *ending) {
    size_t n = strlen(path), m = strlen(ending);
    return n > m && !strcasecmp(path + n - m, ending);
}

bool is_figure_path(const char *path) {
    return has_ending(path, ".svg") || has_ending(path, ".png") || has_ending(path, ".pdf");
}

bool is_paged_path(const char *path) {
    return has_ending(path, ".pdf");
}

figure *open_figure(const char *path, double width, double height) {
    if (has_ending(path, ".svg"))
        return open_svg(path, width, height);
    return is_figure_path(path) ? open_cairo(path, width, height, has_ending(path, ".pdf")) : NULL;
}

void draw_line(figure *f, double x1, double y1, double x2, double y2, pen p) {
    const point ends[] = {{x1, y1}, {x2, y2}};
    f->stroke(f, ends, 2, p);
}

void fill_box(figure *f, double x, double y, double w, double h, colour ink) {
    const point corners[] = {{x, y}, {x + w, y}, {x + w, y + h}, {x, y + h}};
    f->fill(f, corners, 4, ink);
}
