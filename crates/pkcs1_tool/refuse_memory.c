// Makes the allocation of the number REFUSED fail, and reports it on descriptor 9. No file is synced, and if UNSYNCED is
// set, none can be. Preloaded by refuse_memory.sh.
#include <errno.h>
#include <stdlib.h>
#include <unistd.h>

extern void *__libc_malloc(size_t size);
extern void *__libc_realloc(void *old, size_t size);

static int is_refused(void) {
    static long requests;
    const char *number = getenv("REFUSED");
    if (number == NULL || ++requests != atol(number)) {
        return 0;
    }
    errno = ENOMEM;
    return write(9, "x", 1) == 1;
}

void *malloc(size_t size) {
    return is_refused() ? NULL : __libc_malloc(size);
}

void *realloc(void *old, size_t size) {
    return is_refused() ? NULL : __libc_realloc(old, size);
}

int fsync(int file) {
    errno = EIO;
    return file < 0 || getenv("UNSYNCED") != NULL ? -1 : 0;
}
