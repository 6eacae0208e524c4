/*
 * stop.c: what a machine can do to the program, done on purpose. Loaded before the C library (LD_PRELOAD), it counts
 * the program's calls that touch a file and, by the environment:
 *
 *     CHZ_KILL=N    kills the program at call N, a write half done
 *     CHZ_FAIL=N    has call N fail as on a full disk, a write half done and then failing
 *     CHZ_AGAIN=1   has each read and write fail once as interrupted before it is done
 *
 * The launcher's shell loads it too and is left alone.
 */

#define _GNU_SOURCE

#include <dlfcn.h>
#include <errno.h>
#include <fcntl.h>
#include <signal.h>
#include <stdarg.h>
#include <stdbool.h>
#include <stdlib.h>
#include <string.h>
#include <sys/stat.h>
#include <unistd.h>

static long calls;
static bool full;
static int made = -1; /* the file that the program has made and not closed yet */
static bool closed;   /* whether it has made one and closed it */

static long asked(const char *name)
{
    const char *text = getenv(name);
    return text == NULL || strcmp(program_invocation_short_name, "chz") != 0 ? 0 : atol(text);
}

/* Whether this call fails; where it is to be the last, the program does not come back. */
static bool fails(void)
{
    calls++;
    if (calls == asked("CHZ_KILL")) {
        raise(SIGKILL);
    }
    if (calls == asked("CHZ_FAIL")) {
        errno = ENOSPC;
        return true;
    }
    return false;
}

static bool interrupted(void)
{
    static bool last;
    if (asked("CHZ_AGAIN") == 0) {
        return false;
    }
    last = !last;
    errno = EINTR;
    return last;
}

ssize_t write(int fd, const void *bytes, size_t n)
{
    ssize_t (*next)(int, const void *, size_t) = (ssize_t(*)(int, const void *, size_t))dlsym(RTLD_NEXT, "write");
    if (interrupted()) {
        return -1;
    }
    if (full && fd > 2) {
        errno = ENOSPC;
        return -1;
    }
    if (calls + 1 == asked("CHZ_KILL") && n > 1) {
        next(fd, bytes, n / 2);
    }
    if (calls + 1 == asked("CHZ_FAIL") && n > 1 && fd > 2) {
        calls++;
        full = true;
        return next(fd, bytes, n / 2);
    }
    return fails() ? -1 : next(fd, bytes, n);
}

ssize_t read(int fd, void *bytes, size_t n)
{
    ssize_t (*next)(int, void *, size_t) = (ssize_t(*)(int, void *, size_t))dlsym(RTLD_NEXT, "read");
    if (interrupted()) {
        return -1;
    }
    return fails() ? -1 : next(fd, bytes, n);
}

int open(const char *name, int flags, ...)
{
    int (*next)(const char *, int, ...) = (int (*)(const char *, int, ...))dlsym(RTLD_NEXT, "open");
    va_list more;
    va_start(more, flags);
    mode_t mode = va_arg(more, mode_t);
    va_end(more);
    int fd = fails() ? -1 : next(name, flags, mode);
    if (flags & O_CREAT) {
        made = fd;
    }
    return fd;
}

/*
 * The program does not hear of a close that fails. After that of the file that it has made it asks for the file's size,
 * and that call is the one that counts. Before, it only asks whether a name is a pipe's, and goes on where that fails.
 */
int close(int fd)
{
    int (*next)(int) = (int (*)(int))dlsym(RTLD_NEXT, "close");
    if (fd == made) {
        made = -1;
        closed = true;
        return next(fd);
    }
    return fails() ? -1 : next(fd);
}

int statx(int folder, const char *name, int flags, unsigned int mask, struct statx *found)
{
    int (*next)(int, const char *, int, unsigned int, struct statx *) =
        (int (*)(int, const char *, int, unsigned int, struct statx *))dlsym(RTLD_NEXT, "statx");
    return closed && fails() ? -1 : next(folder, name, flags, mask, found);
}

int fsync(int fd)
{
    int (*next)(int) = (int (*)(int))dlsym(RTLD_NEXT, "fsync");
    return fails() ? -1 : next(fd);
}

int rename(const char *from, const char *to)
{
    int (*next)(const char *, const char *) = (int (*)(const char *, const char *))dlsym(RTLD_NEXT, "rename");
    return fails() ? -1 : next(from, to);
}

int unlink(const char *name)
{
    int (*next)(const char *) = (int (*)(const char *))dlsym(RTLD_NEXT, "unlink");
    return fails() ? -1 : next(name);
}
