/* Preloaded in front of a tool: stands between the tool and the calls that lock a file, put it on the disk and in its
 * place. CALLS names a file that each call is noted in, FAIL a call that fails, STOP the number of a signal that comes
 * in place of the rename. */
#include <errno.h>
#include <fcntl.h>
#include <signal.h>
#include <stdio.h>
#include <stdlib.h>
#include <string.h>
#include <sys/file.h>
#include <sys/stat.h>
#include <sys/syscall.h>
#include <unistd.h>

/* Notes a call; 0 where it is to go on. */
static int note(const char *call) {
    const char *notes = getenv("CALLS"), *fail = getenv("FAIL");
    FILE *file = notes ? fopen(notes, "a") : NULL;
    if (file) {
        fprintf(file, "%s\n", call);
        fclose(file);
    }
    if (!fail || strcmp(fail, call) != 0)
        return 0;
    errno = EIO;
    return -1;
}

int flock(int fd, int operation) {
    return note("lock") ? -1 : (int)syscall(SYS_flock, fd, operation);
}

int fsync(int fd) {
    struct stat s;
    return note(fstat(fd, &s) == 0 && S_ISDIR(s.st_mode) ? "flush folder" : "flush file") ? -1
                                                                                          : (int)syscall(SYS_fsync, fd);
}

int rename(const char *old, const char *new) {
    const char *stop = getenv("STOP");
    if (note("rename"))
        return -1;
    if (stop)
        raise((int)strtol(stop, NULL, 10));
    return renameat(AT_FDCWD, old, AT_FDCWD, new);
}
