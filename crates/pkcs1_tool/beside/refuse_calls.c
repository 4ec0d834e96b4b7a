/* Makes calls on files fail, and reports each call. Preloaded by faults.py.
 *
 * REFUSED is a list of KIND,NUMBER,ERROR: the call of this number of this kind fails with this error. LYING is such a
 * list for renames that are done all the same. SHORT: no read or write is of more octets. LAZY: the disk has no room,
 * as it finds out when a file is closed that was written and not synced. To the descriptor CALLS it writes the kind of
 * each call, after `!` if it was refused. After a slash it writes the name of a file that is synced, and the mode and
 * the name of one that is created. What is printed to standard error may be shortened, but doesn't fail. */
#define _GNU_SOURCE
#include <dlfcn.h>
#include <errno.h>
#include <fcntl.h>
#include <stdarg.h>
#include <stdio.h>
#include <stdlib.h>
#include <string.h>
#include <sys/stat.h>
#include <sys/syscall.h>
#include <unistd.h>

enum kind { OPEN, READ, WRITE, FSYNC, CLOSE, FCHMOD, RENAME, UNLINK, REALPATH, STAT, LSTAT, FSTAT, KINDS };
static const char *const names[KINDS] = {"open",   "read",   "write",    "fsync", "close", "fchmod",
                                         "rename", "unlink", "realpath", "stat",  "lstat", "fstat"};

static long seen[KINDS];

/* The error that this list has for the last call of a kind, or 0. */
static int error_in(const char *list, enum kind kind) {
    const char *rest = getenv(list);
    char name[16];
    long number;
    int error, len;
    while (rest != NULL && sscanf(rest, "%15[a-z],%ld,%d%n", name, &number, &error, &len) == 3) {
        if (strcmp(name, names[kind]) == 0 && number == seen[kind])
            return error;
        rest += len + (rest[len] == ' ');
    }
    return 0;
}

/* Whether this call fails, which is of a file of this name. */
static int is_refused_of(enum kind kind, const char *name) {
    char line[300];
    seen[kind]++;
    int error = error_in("REFUSED", kind), kept = errno;
    int len = snprintf(line, sizeof line, "%s%s%.255s\n", error == 0 ? "" : "!", names[kind], name);
    const char *calls = getenv("CALLS");
    if (calls != NULL)
        (void)syscall(SYS_write, atoi(calls), line, len);
    errno = error == 0 ? kept : error;
    return error != 0;
}

static int is_refused(enum kind kind) {
    return is_refused_of(kind, "");
}

/* The same of a call that was made. */
static int told(enum kind kind, int returned) {
    int error = error_in("LYING", kind);
    errno = error == 0 ? errno : error;
    return error == 0 ? returned : -1;
}

/* The files that were written and not synced. */
static unsigned char unsynced[1024];

static void note(int file, unsigned char is_unsynced) {
    if (file > 2 && file < (int)sizeof unsynced)
        unsynced[file] = is_unsynced;
}

static size_t shortened(size_t len) {
    const char *most = getenv("SHORT");
    return most == NULL || len < (size_t)atol(most) ? len : (size_t)atol(most);
}

/* The function of this name that would be called. */
#define NEXT(type, name, ...) ((type(*)(__VA_ARGS__))dlsym(RTLD_NEXT, name))

/* The mode is that of a file that is created. */
static int is_open_refused(const char *path, int flags, unsigned mode) {
    char created[300] = "";
    const char *slash = strrchr(path, '/');
    if (flags & O_CREAT)
        (void)snprintf(created, sizeof created, "/%o/%.255s", mode, slash == NULL ? path : slash + 1);
    return is_refused_of(OPEN, created);
}
static int opens(const char *name, const char *path, int flags, unsigned mode) {
    return is_open_refused(path, flags, mode) ? -1 : NEXT(int, name, const char *, int, ...)(path, flags, mode);
}
static unsigned mode_in(int flags, va_list rest) {
    return flags & O_CREAT ? va_arg(rest, unsigned) : 0;
}
int open(const char *path, int flags, ...) {
    va_list rest;
    va_start(rest, flags);
    unsigned mode = mode_in(flags, rest);
    va_end(rest);
    return opens("open", path, flags, mode);
}
int open64(const char *path, int flags, ...) {
    va_list rest;
    va_start(rest, flags);
    unsigned mode = mode_in(flags, rest);
    va_end(rest);
    return opens("open64", path, flags, mode);
}
int openat(int folder, const char *path, int flags, ...) {
    va_list rest;
    va_start(rest, flags);
    unsigned mode = mode_in(flags, rest);
    va_end(rest);
    if (is_open_refused(path, flags, mode))
        return -1;
    return NEXT(int, "openat", int, const char *, int, ...)(folder, path, flags, mode);
}
ssize_t read(int file, void *room, size_t len) {
    return is_refused(READ) ? -1 : NEXT(ssize_t, "read", int, void *, size_t)(file, room, shortened(len));
}
ssize_t write(int file, const void *octets, size_t len) {
    note(file, 1);
    return file != 2 && is_refused(WRITE)
               ? -1
               : NEXT(ssize_t, "write", int, const void *, size_t)(file, octets, shortened(len));
}
int fsync(int file) {
    char at[30], path[4096] = "", *name;
    (void)snprintf(at, sizeof at, "/proc/self/fd/%d", file);
    name = readlink(at, path, sizeof path - 1) < 0 ? NULL : strrchr(path, '/');
    if (is_refused_of(FSYNC, name == NULL ? "" : name))
        return -1;
    note(file, 0);
    return NEXT(int, "fsync", int)(file);
}
/* It closes the file all the same, as Linux does. */
int close(int file) {
    int refused = is_refused(CLOSE), error = errno;
    if (getenv("LAZY") != NULL && file > 2 && file < (int)sizeof unsynced && unsynced[file] && !ftruncate(file, 0))
        refused = 1, error = ENOSPC;
    note(file, 0);
    int closed = NEXT(int, "close", int)(file);
    errno = refused ? error : errno;
    return refused ? -1 : closed;
}
int fchmod(int file, mode_t mode) {
    return is_refused(FCHMOD) ? -1 : NEXT(int, "fchmod", int, mode_t)(file, mode);
}
int rename(const char *from, const char *to) {
    return is_refused(RENAME) ? -1 : told(RENAME, NEXT(int, "rename", const char *, const char *)(from, to));
}
int renameat(int one, const char *from, int other, const char *to) {
    if (is_refused(RENAME))
        return -1;
    return told(RENAME, NEXT(int, "renameat", int, const char *, int, const char *)(one, from, other, to));
}
int unlink(const char *path) {
    return is_refused(UNLINK) ? -1 : NEXT(int, "unlink", const char *)(path);
}
int unlinkat(int folder, const char *path, int flags) {
    return is_refused(UNLINK) ? -1 : NEXT(int, "unlinkat", int, const char *, int)(folder, path, flags);
}
char *realpath(const char *path, char *room) {
    return is_refused(REALPATH) ? NULL : NEXT(char *, "realpath", const char *, char *)(path, room);
}
int stat(const char *path, struct stat *found) {
    return is_refused(STAT) ? -1 : NEXT(int, "stat", const char *, struct stat *)(path, found);
}
int lstat(const char *path, struct stat *found) {
    return is_refused(LSTAT) ? -1 : NEXT(int, "lstat", const char *, struct stat *)(path, found);
}
int fstat(int file, struct stat *found) {
    return is_refused(FSTAT) ? -1 : NEXT(int, "fstat", int, struct stat *)(file, found);
}
/* statx, by which Rust's std asks. To know whether there is such a call it passes null, which headers forbid. */
int asked(int folder, const char *path, int flags, unsigned mask, void *found) __asm__("statx");
int asked(int folder, const char *path, int flags, unsigned mask, void *found) {
    enum kind kind = flags & AT_EMPTY_PATH ? FSTAT : flags & AT_SYMLINK_NOFOLLOW ? LSTAT : STAT;
    if (path != NULL && is_refused(kind))
        return -1;
    return NEXT(int, "statx", int, const char *, int, unsigned, void *)(folder, path, flags, mask, found);
}
