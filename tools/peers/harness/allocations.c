/* Counts calls for memory; it is preloaded. */
#include <stddef.h>

unsigned long allocation_count;
extern void *__libc_malloc(size_t), *__libc_calloc(size_t, size_t), *__libc_realloc(void *, size_t);
extern void *__libc_memalign(size_t, size_t);

void *malloc(size_t size) {
    allocation_count++;
    return __libc_malloc(size);
}
void *calloc(size_t count, size_t size) {
    allocation_count++;
    return __libc_calloc(count, size);
}
void *realloc(void *old, size_t size) {
    allocation_count++;
    return __libc_realloc(old, size);
}
void *memalign(size_t alignment, size_t size) {
    allocation_count++;
    return __libc_memalign(alignment, size);
}
void *aligned_alloc(size_t alignment, size_t size) {
    return memalign(alignment, size);
}
int posix_memalign(void **to, size_t alignment, size_t size) {
    return (*to = memalign(alignment, size)) == NULL ? 12 : 0;
}
