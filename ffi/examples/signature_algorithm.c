/* signature_algorithm FILE: prints the hash function and the salt length of RSASSA-PSS in the file, which is the DER of
 * a certificate's signatureAlgorithm. */
#include <pkcs1.h>
#include <stdio.h>

static const struct { const struct pkcs1_bytes *oid; const char *name; } hashes[] = {
    {&pkcs1_oid_sha256, "SHA-256"}, {&pkcs1_oid_sha384, "SHA-384"}, {&pkcs1_oid_sha512, "SHA-512"}};

int main(int argc, char **argv) {
    static uint8_t der[65536];
    FILE *in = argc == 2 ? fopen(argv[1], "rb") : NULL;
    if (in == NULL)
        return fputs("usage: signature_algorithm FILE\n", stderr), 2;
    size_t len = fread(der, 1, sizeof der, in);
    fclose(in);

    struct pkcs1_pss_params params;
    uint32_t status = pkcs1_pss_algorithm_decode(der, len, &params);
    if (status != PKCS1_OK)
        return fprintf(stderr, "%s: %s\n", argv[1], pkcs1_strerror(status)), 1;
    for (size_t i = 0; i < sizeof hashes / sizeof hashes[0]; i++)
        if (pkcs1_pss_is(&params, hashes[i].oid))
            return printf("%s, a salt of %u octets\n", hashes[i].name, params.salt_len) < 0;
    return fprintf(stderr, "%s: hash functions that are not accepted\n", argv[1]), 1;
}
