/* Prints the modulus of the public key in a file. */
#include <pkcs1.h>
#include <stdio.h>

int main(int argc, char **argv) {
    static uint8_t der[65536];
    if (argc != 2)
        return fputs("usage: modulus FILE\n", stderr), 2;
    FILE *file = fopen(argv[1], "rb");
    if (file == NULL)
        return perror(argv[1]), 1;
    size_t len = fread(der, 1, sizeof der, file);
    if (ferror(file))
        return perror(argv[1]), 1;
    if (len == 0)
        return fprintf(stderr, "%s: the file is empty\n", argv[1]), 1;
    if (len == sizeof der && fgetc(file) != EOF)
        return fprintf(stderr, "%s: the file is longer than %zu bytes\n", argv[1], sizeof der), 1;
    fclose(file);

    struct pkcs1_public_key key;
    uint32_t status = pkcs1_public_key_decode(der, len, &key);
    if (status != PKCS1_OK)
        return fprintf(stderr, "%s: %s\n", argv[1], pkcs1_strerror(status)), 1;
    for (size_t i = 0; i < key.modulus.len; i++)
        printf("%02x", key.modulus.data[i]);
    return puts("") == EOF;
}
