/* make_container KEY OUT: puts the private key in the file KEY into a PKCS #8 container, in the file OUT. */
#include <pkcs1.h>
#include <stdio.h>
#include <stdlib.h>

int main(int argc, char **argv) {
    static uint8_t der[65536];
    FILE *in = argc == 3 ? fopen(argv[1], "rb") : NULL;
    if (in == NULL)
        return fputs("usage: make_container KEY OUT\n", stderr), 2;
    struct pkcs1_private_key_info info = {{der, fread(der, 1, sizeof der, in)}, false, {NULL, 0}};
    fclose(in);

    uint8_t *out = NULL;
    size_t len = 0;
    uint32_t status = pkcs1_private_key_info_encode(&info, NULL, 0, &len); /* no room: asks for the length */
    if (status == PKCS1_NO_ROOM) {
        if ((out = malloc(len)) == NULL)
            return perror(argv[2]), 1;
        status = pkcs1_private_key_info_encode(&info, out, len, &len);
    }
    if (status != PKCS1_OK)
        return fprintf(stderr, "%s: %s\n", argv[1], pkcs1_strerror(status)), 1;

    FILE *to = fopen(argv[2], "wb");
    if (to == NULL || fwrite(out, 1, len, to) != len || fclose(to) != 0)
        return perror(argv[2]), 1;
    free(out);
    return 0;
}
