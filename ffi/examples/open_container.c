/* open_container FILE OUT: reads a private key, which is PKCS #1 or in a PKCS #8 container, says what is in it, and
 * writes it to the file OUT, as PKCS #1. */
#include <pkcs1.h>
#include <stdio.h>

int main(int argc, char **argv) {
    static uint8_t der[65536];
    FILE *in = argc == 3 ? fopen(argv[1], "rb") : NULL;
    if (in == NULL)
        return fputs("usage: open_container FILE OUT\n", stderr), 2;
    size_t len = fread(der, 1, sizeof der, in);
    fclose(in);

    struct pkcs1_private_key key;
    struct pkcs1_private_key_info info = {.private_key = {der, len}};
    uint32_t status = pkcs1_private_key_decode(der, len, &key, NULL, 0);
    if (status == PKCS1_TAG_UNEXPECTED) /* no number stands behind the version: it may be a container */
        status = pkcs1_private_key_info_decode(der, len, &info, &key, NULL, 0);
    if (status != PKCS1_OK)
        return fprintf(stderr, "%s: %s\n", argv[1], pkcs1_strerror(status)), 1;
    printf("modulus of %zu octets, %zu primes, %s attributes\n", key.modulus.len, key.other_primes + 2,
           info.has_attributes ? "with" : "without");

    FILE *to = fopen(argv[2], "wb");
    if (to == NULL || fwrite(info.private_key.data, 1, info.private_key.len, to) != info.private_key.len ||
        fclose(to) != 0)
        return perror(argv[2]), 1;
    return 0;
}
