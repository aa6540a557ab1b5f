/* Method: the sheet's own file is locked. Whoever changed it has put another file in its place, and those that waited
 * hold the lock of the old one: they see that, and wait for the new one. */
#include <errno.h>
#include <fcntl.h>
#include <limits.h>
#include <stdlib.h>
#include <string.h>
#include <sys/file.h>
#include <sys/stat.h>
#include <unistd.h>

#include "common.h"
#include "options.h"

/* Whether two paths lead to one place, whichever file stands there at the moment. */
static bool is_one_place(const char *a, const char *b) {
    char place_a[PATH_MAX], place_b[PATH_MAX];
    return !is_standard(a) && !is_standard(b) && realpath(a, place_a) && realpath(b, place_b) &&
           !strcmp(place_a, place_b);
}

/* Whether the open file is the one at the path. */
static bool is_at(int file, const char *path) {
    struct stat open_one, there;
    return fstat(file, &open_one) == 0 && stat(path, &there) == 0 && open_one.st_dev == there.st_dev &&
           open_one.st_ino == there.st_ino;
}

/* Locks the file at the path until the program ends. 0 is success. */
static int lock_until_end(const char *path) {
    static int file;
    while ((file = open(path, O_RDWR | O_CLOEXEC)) >= 0) {
        if (flock(file, LOCK_EX) != 0)
            return refuse("%s: it cannot be locked, and what another program adds could be lost: %s", path,
                          strerror(errno));
        if (is_at(file, path))
            return DONE;
        close(file);
    }
    return refuse_file(path);
}

int load_to_change(const char *input, const char *output, uint8_t sheet[SHEET_MOST + 1], size_t *n) {
    if (is_one_place(input, output) && lock_until_end(input))
        return REFUSED;
    return load_sheet(input, sheet, n);
}
