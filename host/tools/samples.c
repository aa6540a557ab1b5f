#include <limits.h>
#include <string.h>
#include <unistd.h>

#include "common.h"

const char *samples_folder(void) {
    static const char installed[] = "/../share/airstate/samples";
    static char folder[PATH_MAX + sizeof installed];
    ssize_t n = readlink("/proc/self/exe", folder, PATH_MAX);
    char *slash = n > 0 ? memrchr(folder, '/', (size_t)n) : NULL;
    if (slash)
        memcpy(slash, installed, sizeof installed);
    return slash && access(folder, R_OK) == 0 ? folder : SAMPLES_FOLDER;
}
