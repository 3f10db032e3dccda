/* Preloaded before the C library, for tests of moments that can't be hit from outside.
 * AT_FLUSH: a command that is run when a file is brought to the disk, which is between the last read and the rename.
 * FOLDER_FAILS: bringing a folder to the disk fails.
 * READ_FAILS: the byte 100,000 of files whose path has this in it can't be read.
 * READ_WAITS: it can be read, but that takes a while. */
#define _GNU_SOURCE
#include <errno.h>
#include <stdio.h>
#include <stdlib.h>
#include <string.h>
#include <sys/stat.h>
#include <sys/syscall.h>
#include <unistd.h>

int fsync(int fd)
{
    struct stat found;
    const char *command = getenv("AT_FLUSH");
    if (fstat(fd, &found) == 0 && S_ISDIR(found.st_mode) && getenv("FOLDER_FAILS")) {
        errno = EIO;
        return -1;
    }
    if (command && S_ISREG(found.st_mode)) {
        unsetenv("LD_PRELOAD");
        if (system(command) != 0)
            abort();
    }
    return (int)syscall(SYS_fsync, fd);
}

static int is_named(int fd, const char *name)
{
    char link[64], path[4096];
    ssize_t length;
    snprintf(link, sizeof link, "/proc/self/fd/%d", fd);
    length = name ? readlink(link, path, sizeof path - 1) : -1;
    if (length < 0)
        return 0;
    path[length] = 0;
    return strstr(path, name) != 0;
}

ssize_t pread64(int fd, void *bytes, size_t count, off64_t from)
{
    if (from <= 100000 && from + (off64_t)count > 100000) {
        if (is_named(fd, getenv("READ_FAILS"))) {
            errno = EIO;
            return -1;
        }
        if (is_named(fd, getenv("READ_WAITS")))
            usleep(1600000);
    }
    return syscall(SYS_pread64, fd, bytes, count, from);
}
