/* Signals that come at the worst time: every other call of each of these kinds, from the first on, fails by EINTR, and the
 * others read or write no more than half. The names of those that fail are written to descriptor 9. Preloaded by
 * check.sh. */
#define _GNU_SOURCE
#include <dlfcn.h>
#include <errno.h>
#include <fcntl.h>
#include <stdarg.h>
#include <stdbool.h>
#include <string.h>
#include <sys/stat.h>
#include <sys/syscall.h>
#include <unistd.h>

/* Whether this call is interrupted: if the one before of its kind wasn't. */
static bool is_interrupted(const char *name, bool *before) {
    *before = !*before;
    if (!*before)
        return false;
    (void)syscall(SYS_write, 9, name, strlen(name));
    errno = EINTR;
    return true;
}

static size_t half(size_t len) {
    return (len + 1) / 2;
}

/* The function of this name that would be called. */
#define NEXT(type, name, ...) ((type(*)(__VA_ARGS__))dlsym(RTLD_NEXT, name))

int open(const char *path, int flags, ...) {
    static bool before;
    va_list rest;
    va_start(rest, flags);
    unsigned mode = flags & O_CREAT ? va_arg(rest, unsigned) : 0;
    va_end(rest);
    return is_interrupted("open\n", &before) ? -1 : NEXT(int, "open", const char *, int, ...)(path, flags, mode);
}
ssize_t read(int file, void *room, size_t len) {
    static bool before;
    return is_interrupted("read\n", &before) ? -1 : NEXT(ssize_t, "read", int, void *, size_t)(file, room, half(len));
}
ssize_t write(int file, const void *octets, size_t len) {
    static bool before;
    return is_interrupted("write\n", &before)
               ? -1
               : NEXT(ssize_t, "write", int, const void *, size_t)(file, octets, half(len));
}
int fsync(int file) {
    static bool before;
    return is_interrupted("fsync\n", &before) ? -1 : NEXT(int, "fsync", int)(file);
}
int fchmod(int file, mode_t mode) {
    static bool before;
    return is_interrupted("fchmod\n", &before) ? -1 : NEXT(int, "fchmod", int, mode_t)(file, mode);
}
