/* What the tool asks of the system, beside memory, and C's `main`. Here is what hangs on headers: numbers of flags and
 * of errors, and structs. rust/tool/src/rattle_std/system.rs, which calls these, declares them once more. Trusted, not
 * proved.
 *
 * Each returns FAILED, NO_MEMORY, EXISTS or NOT_FOUND if the system didn't do it. What a signal interrupts is asked
 * again. */
#define _XOPEN_SOURCE 700
#define _DEFAULT_SOURCE /* for getentropy */
#include <errno.h>
#include <fcntl.h>
#include <limits.h>
#include <signal.h>
#include <stddef.h>
#include <stdint.h>
#include <stdio.h>
#include <stdlib.h>
#include <sys/stat.h>
#include <unistd.h>

enum { FAILED = -1, NO_MEMORY = -2, EXISTS = -3, NOT_FOUND = -4 };
enum how { READ, WRITE, CREATE_NEW };
enum kind { REGULAR, LINK, OTHER };
/* What is known of a file. No two files have the same device and number. */
struct found {
    uint64_t device, number, len;
    uint32_t mode;
};
/* The octets of a path, with the zero octet behind it. */
enum { LONGEST = 4096 };
#if PATH_MAX > 4096
#error "realpath may write more than LONGEST octets here"
#endif

int pkcs1_tool_main(int count, const char *const *words);
ptrdiff_t pkcs1_os_open(const char *path, int how, unsigned mode);
ptrdiff_t pkcs1_os_read(int file, uint8_t *room, size_t len);
ptrdiff_t pkcs1_os_write(int file, const uint8_t *octets, size_t len);
ptrdiff_t pkcs1_os_sync(int file);
ptrdiff_t pkcs1_os_set_mode(int file, unsigned mode);
void pkcs1_os_close(int file);
ptrdiff_t pkcs1_os_look(const char *path, int through_link, struct found *found);
ptrdiff_t pkcs1_os_look_at(int file, struct found *found);
ptrdiff_t pkcs1_os_real_path(const char *path, char room[LONGEST]);
ptrdiff_t pkcs1_os_rename(const char *from, const char *to);
ptrdiff_t pkcs1_os_remove(const char *path);
ptrdiff_t pkcs1_os_random(uint8_t *room, size_t len);

/* What is returned of a call that failed. */
static ptrdiff_t failed(void) {
    switch (errno) {
        case ENOMEM: return NO_MEMORY;
        case EEXIST: return EXISTS;
        case ENOENT: return NOT_FOUND;
        default: return FAILED;
    }
}

static int opened(const char *path, int flags, unsigned mode) {
    int file;
    do
        file = open(path, flags | O_CLOEXEC | O_NOCTTY, (mode_t)mode);
    while (file < 0 && errno == EINTR);
    return file;
}

/* The number of the file. The mode is that of a file that is created. */
ptrdiff_t pkcs1_os_open(const char *path, int how, unsigned mode) {
    int file = -1;
    switch ((enum how)how) {
        case READ: file = opened(path, O_RDONLY, 0); break;
        case WRITE: file = opened(path, O_WRONLY, 0); break;
        case CREATE_NEW: file = opened(path, O_WRONLY | O_CREAT | O_EXCL, mode); break;
    }
    return file < 0 ? failed() : file;
}

/* How many octets were read: 0 at the end. */
ptrdiff_t pkcs1_os_read(int file, uint8_t *room, size_t len) {
    ssize_t done;
    do
        done = read(file, room, len);
    while (done < 0 && errno == EINTR);
    return done < 0 ? failed() : done;
}

/* How many octets were written. */
ptrdiff_t pkcs1_os_write(int file, const uint8_t *octets, size_t len) {
    ssize_t done;
    do
        done = write(file, octets, len);
    while (done < 0 && errno == EINTR);
    return done < 0 ? failed() : done;
}

/* Waits until the disk has what the file holds. */
ptrdiff_t pkcs1_os_sync(int file) {
    int done;
    do
        done = fsync(file);
    while (done < 0 && errno == EINTR);
    return done < 0 ? failed() : 0;
}

ptrdiff_t pkcs1_os_set_mode(int file, unsigned mode) {
    int done;
    do
        done = fchmod(file, (mode_t)mode);
    while (done < 0 && errno == EINTR);
    return done < 0 ? failed() : 0;
}

/* Whether it closes isn't told: what was written to a regular file is on the disk before. */
void pkcs1_os_close(int file) {
    (void)close(file);
}

/* The kind of what is found. */
static ptrdiff_t told(const struct stat *it, struct found *found) {
    *found = (struct found){(uint64_t)it->st_dev, (uint64_t)it->st_ino, (uint64_t)it->st_size, (uint32_t)it->st_mode};
    return S_ISREG(it->st_mode) ? REGULAR : S_ISLNK(it->st_mode) ? LINK : OTHER;
}

/* Of what stands at the path, or of what a link there names. */
ptrdiff_t pkcs1_os_look(const char *path, int through_link, struct found *found) {
    struct stat it;
    return (through_link ? stat(path, &it) : lstat(path, &it)) < 0 ? failed() : told(&it, found);
}

/* Of an open file. */
ptrdiff_t pkcs1_os_look_at(int file, struct found *found) {
    struct stat it;
    return fstat(file, &it) < 0 ? failed() : told(&it, found);
}

/* The path of the same file that goes through no link. */
ptrdiff_t pkcs1_os_real_path(const char *path, char room[LONGEST]) {
    return realpath(path, room) == NULL ? failed() : 0;
}

ptrdiff_t pkcs1_os_rename(const char *from, const char *to) {
    return rename(from, to) < 0 ? failed() : 0;
}

ptrdiff_t pkcs1_os_remove(const char *path) {
    return unlink(path) < 0 ? failed() : 0;
}

/* Random octets, at most 256. */
ptrdiff_t pkcs1_os_random(uint8_t *room, size_t len) {
    return getentropy(room, len) < 0 ? failed() : 0;
}

int main(int argc, char **argv) {
    /* To write to a pipe that nobody reads, or past the size that a file may have, is an error, and doesn't end the
     * program. */
    (void)signal(SIGPIPE, SIG_IGN);
    (void)signal(SIGXFSZ, SIG_IGN);
    return pkcs1_tool_main(argc, (const char *const *)argv);
}
