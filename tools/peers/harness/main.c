/* peers COMMAND ..: how libraries read and write RSA keys and parameters.
 *
 *     check CORPUS OUT LIBRARY               an octet for each input into OUT: see check.c
 *     speed WHAT FOLDER SET [LIBRARY..]      the cost of a set of inputs for each library: see speed.c
 *     rows WHAT FOLDER INPUT..               that of each call, beside a line of C: see rows.c */
#include "peers.h"
#include <stdio.h>
#include <string.h>

extern const struct library libpkcs1, libpkcs1_strict, line_of_c, crate_structs, crate_views;
#ifdef OWN /* without the libraries of Debian's packages */
const struct library *const libraries[] = {&libpkcs1, &libpkcs1_strict, &line_of_c, &crate_structs, &crate_views};
#else
extern const struct library libpkcs1_bignums, openssl, mbedtls, wolfssl, botan, gnutls, libtasn1, rustcrypto, rust_asn1;
extern const struct library walk_of_nettle, walk_of_openssl;
const struct library *const libraries[] = {
    &libpkcs1, &libpkcs1_strict, &line_of_c, &crate_structs, &crate_views, &libpkcs1_bignums, &openssl,
    &mbedtls,  &wolfssl,         &botan,     &gnutls,        &libtasn1,    &rustcrypto,       &rust_asn1,
    &walk_of_nettle, &walk_of_openssl};
#endif
const size_t library_count = sizeof libraries / sizeof *libraries;

const struct library *library_named(const char *name) {
    for (size_t i = 0; i < library_count; i++)
        if (strcmp(libraries[i]->name, name) == 0)
            return libraries[i];
    return NULL;
}

static const struct {
    const char *name;
    int (*run)(int, char **);
    int arguments; /* at least so many */
} commands[] = {{"check", check, 3}, {"speed", speed, 3}, {"rows", rows_of, 3}};

int main(int argc, char **argv) {
    for (size_t i = 0; argc > 1 && i < sizeof commands / sizeof *commands; i++)
        if (strcmp(argv[1], commands[i].name) == 0 && argc - 2 >= commands[i].arguments)
            return commands[i].run(argc - 2, argv + 2);
    fputs("usage: peers COMMAND ARGUMENT..: the head of main.c has the commands\n", stderr);
    return 2;
}
