/* make_params OUT: writes the algorithm identifier of RSASSA-PSS with SHA-256 and a salt of 32 octets to the file OUT. */
#include <pkcs1.h>
#include <stdio.h>

int main(int argc, char **argv) {
    if (argc != 2)
        return fputs("usage: make_params OUT\n", stderr), 2;
    struct pkcs1_pss_params params;
    uint8_t out[128];
    size_t len = 0;
    pkcs1_pss_params_init(&params, &pkcs1_oid_sha256, 32);
    uint32_t status = pkcs1_pss_algorithm_encode(&params, out, sizeof out, &len);
    if (status != PKCS1_OK)
        return fprintf(stderr, "%s\n", pkcs1_strerror(status)), 1;

    FILE *to = fopen(argv[1], "wb");
    if (to == NULL || fwrite(out, 1, len, to) != len || fclose(to) != 0)
        return perror(argv[1]), 1;
    return 0;
}
