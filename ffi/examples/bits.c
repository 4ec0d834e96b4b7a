/* Prints the bit length of the public key on standard input. */
#include <pkcs1.h>
#include <stdio.h>

int main(void) {
    static uint8_t der[65536];
    size_t len = fread(der, 1, sizeof der, stdin);
    if (len == sizeof der)
        return fputs("the input is too long\n", stderr), 1;

    struct pkcs1_public_key key;
    uint32_t status = pkcs1_public_key_decode(der, len, &key);
    if (status != PKCS1_OK)
        return fprintf(stderr, "%s\n", pkcs1_strerror(status)), 1;
    return printf("%u bits\n", (unsigned)pkcs1_bit_len(key.modulus)) < 0;
}
