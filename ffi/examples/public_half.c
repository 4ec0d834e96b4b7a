/* public_half KEY OUT: writes the public half of the private key in the file KEY to the file OUT. */
#include <pkcs1.h>
#include <stdio.h>

int main(int argc, char **argv) {
    static uint8_t der[65536], out[sizeof der]; /* a public half is shorter than its key */
    FILE *in = argc == 3 ? fopen(argv[1], "rb") : NULL;
    if (in == NULL)
        return fputs("usage: public_half KEY OUT\n", stderr), 2;
    size_t len = fread(der, 1, sizeof der, in), out_len = 0;
    fclose(in);

    struct pkcs1_private_key key;
    uint32_t status = pkcs1_private_key_decode(der, len, &key, NULL, 0);
    if (status != PKCS1_OK)
        return fprintf(stderr, "%s: %s\n", argv[1], pkcs1_strerror(status)), 1;
    struct pkcs1_public_key half = {key.modulus, key.public_exponent};
    status = pkcs1_public_key_encode(&half, out, sizeof out, &out_len);
    if (status != PKCS1_OK)
        return fprintf(stderr, "%s: %s\n", argv[1], pkcs1_strerror(status)), 1;

    FILE *to = fopen(argv[2], "wb");
    if (to == NULL || fwrite(out, 1, out_len, to) != out_len || fclose(to) != 0)
        return perror(argv[2]), 1;
    return 0;
}
