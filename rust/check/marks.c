/* Marks octets for valgrind. */
#include <stddef.h>
#include <valgrind/memcheck.h>

void hide(void *octets, size_t len) {
    VALGRIND_MAKE_MEM_UNDEFINED(octets, len);
}
void show(void *octets, size_t len) {
    VALGRIND_MAKE_MEM_DEFINED(octets, len);
}
