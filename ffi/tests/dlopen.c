/* dlopen LIBRARY: looks up calls in the shared library by their names. */
#include "pkcs1.h"
#include <dlfcn.h>
#include <stdio.h>
#include <string.h>

int main(int argc, char **argv) {
    uint32_t (*decode)(const uint8_t *, size_t, struct pkcs1_public_key *);
    const char *(*text)(uint32_t);
    void *library = argc == 2 ? dlopen(argv[1], RTLD_NOW) : NULL;
    if (library == NULL)
        return fprintf(stderr, "%s\n", dlerror()), 1;
    *(void **)&decode = dlsym(library, "pkcs1_public_key_decode");
    *(void **)&text = dlsym(library, "pkcs1_strerror");
    struct pkcs1_bytes *sha256 = dlsym(library, "pkcs1_oid_sha256");
    struct pkcs1_public_key key;
    if (decode == NULL || text == NULL || sha256 == NULL || sha256->len != 9)
        return fputs("a symbol is missing\n", stderr), 1;
    return strstr(text(decode((const uint8_t *)"\x30", 1, &key)), "the input ends too early") == NULL;
}
