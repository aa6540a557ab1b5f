/* Method: the bytes go to a temporary file in the target's folder, from there to the disk, and then the file is renamed
 * over the target. So a reader finds the old bytes or the new ones, and whatever fails leaves the old ones. */
#include <errno.h>
#include <fcntl.h>
#include <limits.h>
#include <signal.h>
#include <stdbool.h>
#include <stdlib.h>
#include <string.h>
#include <sys/stat.h>
#include <unistd.h>

#include "common.h"
#include "options.h"

enum { LINKS_MOST = 40 };

/* The output that is being written, one at a time; `begun` while its temporary file is there. */
static char target[PATH_MAX], temporary[PATH_MAX];
static volatile sig_atomic_t begun;

/* Removes the temporary file and lets the signal end the program. */
static void remove_and_end(int number) {
    if (begun)
        unlink(temporary);
    raise(number);
}

/* A limit on a file's size is told as any other failure. A signal that is ignored stays so. */
static void catch_signals(void) {
    static const int ends[] = {SIGHUP, SIGINT, SIGQUIT, SIGTERM};
    struct sigaction caught = {.sa_handler = remove_and_end, .sa_flags = (int)SA_RESETHAND}, before;
    for (size_t i = 0; i < sizeof ends / sizeof *ends; i++)
        if (sigaction(ends[i], NULL, &before) == 0 && before.sa_handler != SIG_IGN)
            sigaction(ends[i], &caught, NULL);
    sigaction(SIGXFSZ, &(struct sigaction){.sa_handler = SIG_IGN}, NULL);
}

/* The length of a path's folder with the slash behind it; 0 where it is the current one. */
static int folder_length(const char *path) {
    const char *slash = strrchr(path, '/');
    return slash ? (int)(slash - path) + 1 : 0;
}

/* Writes `name` behind the folder of `path`, whether or not they stand in one array. */
static bool put_beside(char out[PATH_MAX], const char *path, const char *name) {
    char whole[2 * PATH_MAX];
    int n = snprintf(whole, sizeof whole, "%.*s%s", name[0] == '/' ? 0 : folder_length(path), path, name);
    if (n >= PATH_MAX) {
        errno = ENAMETOOLONG;
        return false;
    }
    memcpy(out, whole, (size_t)n + 1);
    return true;
}

/* Sets the target to what the path, or the symbolic links that it begins, lead to, whether or not there is a file. */
static bool find_target(const char *path) {
    char next[PATH_MAX];
    if (!put_beside(target, "", path))
        return false;
    for (int links = 0; links < LINKS_MOST; links++) {
        ssize_t n = readlink(target, next, sizeof next - 1);
        if (n < 0)
            return true;
        next[n] = '\0';
        if (!put_beside(target, target, next))
            return false;
    }
    errno = ELOOP;
    return false;
}

/* Makes the temporary file; no signal finds it without its name. */
static int make_temporary(void) {
    sigset_t all, before;
    sigfillset(&all);
    sigprocmask(SIG_BLOCK, &all, &before);
    int file = mkostemp(temporary, O_CLOEXEC);
    int fault = errno;
    begun = file >= 0;
    sigprocmask(SIG_SETMASK, &before, NULL);
    errno = fault;
    return file;
}

static void remove_temporary(void) {
    unlink(temporary);
    begun = 0;
}

/* Owner and mode of the file that is replaced, the owner as far as the user may; a new one's mode goes by the umask. */
static bool set_mode(int file, const struct stat *old) {
    if (old) {
        bool owned = fchown(file, old->st_uid, old->st_gid) == 0 || fchown(file, (uid_t)-1, old->st_gid) == 0;
        (void)owned;
        return fchmod(file, old->st_mode & 07777) == 0;
    }
    mode_t mask = umask(0);
    umask(mask);
    return fchmod(file, 0666 & ~mask) == 0;
}

/* Tells that there is nothing to write to, by errno. Gives null. */
static FILE *no_file(const char *path) {
    refuse_file(path);
    return NULL;
}

/* Opens the temporary file for a path; tells a failure, an old file that may not be written too, and gives null. */
static FILE *open_temporary(const char *path, const struct stat *old) {
    if (!find_target(path) || !put_beside(temporary, target, ".airstate-XXXXXX") ||
        (old && faccessat(AT_FDCWD, target, W_OK, AT_EACCESS) != 0))
        return no_file(path);
    int number = make_temporary();
    if (number < 0 && old)
        refuse("%s: no new file can be made beside it: %s", path, strerror(errno));
    if (number < 0)
        return old ? NULL : no_file(path);
    FILE *file = set_mode(number, old) ? fdopen(number, "wb") : NULL;
    if (file)
        return file;
    int fault = errno;
    close(number);
    remove_temporary();
    errno = fault;
    return no_file(path);
}

/* Whether a path is that of standard output, as /dev/stdout is. */
static bool is_standard_output(const struct stat *s) {
    struct stat standard;
    return fstat(STDOUT_FILENO, &standard) == 0 && standard.st_dev == s->st_dev && standard.st_ino == s->st_ino;
}

FILE *open_output(const char *path) {
    struct stat s;
    catch_signals();
    if (is_standard(path))
        return stdout;
    bool exists = stat(path, &s) == 0;
    if (exists && is_standard_output(&s))
        return stdout;
    if (!exists || S_ISREG(s.st_mode))
        return open_temporary(path, exists ? &s : NULL);
    FILE *file = fopen(path, "wb");
    if (!file)
        refuse_file(path);
    return file;
}

/* Sends what is left to the file, a temporary one to the disk, and closes it. Gives errno's number; 0 is success. */
static int finish_file(FILE *file) {
    bool whole = !ferror(file) && fflush(file) == 0 && (!begun || fsync(fileno(file)) == 0);
    int fault = errno ? errno : EIO;
    if (file != stdout && fclose(file) != 0 && whole) {
        whole = false;
        fault = errno;
    }
    return whole ? 0 : fault;
}

/* Sends the new name to the disk too, where the file system can and the user may. */
static int flush_folder(void) {
    char folder[PATH_MAX];
    if (!put_beside(folder, target, "."))
        return errno;
    int number = open(folder, O_RDONLY | O_DIRECTORY | O_CLOEXEC);
    if (number < 0)
        return errno == EACCES ? 0 : errno;
    int fault = fsync(number) != 0 && errno != EINVAL ? errno : 0;
    close(number);
    return fault;
}

/* Puts a finished temporary file in the target's place. Gives errno's number; 0 is success. */
static int replace_target(void) {
    if (rename(temporary, target) != 0)
        return errno;
    begun = 0;
    return flush_folder();
}

int close_output(FILE *file, const char *path) {
    int fault = finish_file(file);
    if (begun && !fault)
        fault = replace_target();
    if (begun)
        remove_temporary();
    errno = fault;
    return fault ? refuse_file(output_name(path)) : DONE;
}

void drop_output(FILE *file) {
    if (file != stdout)
        fclose(file);
    if (begun)
        remove_temporary();
}

int write_output(const char *path, const void *bytes, size_t n) {
    FILE *file = open_output(path);
    if (!file)
        return REFUSED;
    fwrite(bytes, 1, n, file);
    return close_output(file, path);
}
