/* read_key KIND FILE [OUT]: reads the key or the parameters in a file, prints their numbers, and writes them again to
 * OUT. KIND is pub, priv, p8, pss or oaep. */
#include <inttypes.h>
#include <pkcs1.h>
#include <stdio.h>
#include <stdlib.h>
#include <string.h>

static uint8_t *der, *again;
static size_t der_len, again_len;

static void *must(void *got) {
    if (got == NULL) {
        perror("read_key");
        exit(1);
    }
    return got;
}

static void ok(uint32_t status) {
    if (status != PKCS1_OK) {
        fprintf(stderr, "%s\n", pkcs1_strerror(status));
        exit(1);
    }
}

static void put(const char *name, struct pkcs1_bytes number) {
    printf("%s=", name);
    for (size_t i = 0; i < number.len; i++)
        printf("%02x", number.data[i]);
    putchar('\n');
}

static void put_algorithm(const char *name, const struct pkcs1_algorithm *algorithm) {
    put(name, algorithm->oid);
    if (algorithm->has_parameters)
        put(" parameters", algorithm->parameters);
}

/* Calls an encoder with room 0, which gives the length needed, and again with that much room. */
#define ENCODE(call, ...)                                                                                             \
    do {                                                                                                              \
        if (call(__VA_ARGS__, NULL, 0, &again_len) != PKCS1_NO_ROOM)                                                  \
            exit(1);                                                                                                  \
        again = must(malloc(again_len));                                                                              \
        ok(call(__VA_ARGS__, again, again_len, &again_len));                                                          \
    } while (0)

static void public_key(void) {
    struct pkcs1_public_key key;
    ok(pkcs1_public_key_decode(der, der_len, &key));
    put("n", key.modulus);
    put("e", key.public_exponent);
    printf("bits=%" PRIu64 "\n", pkcs1_bit_len(key.modulus));
    ENCODE(pkcs1_public_key_encode, &key);
}

static void private_key(void) {
    struct pkcs1_private_key key;
    ok(pkcs1_private_key_decode(der, der_len, &key, NULL, 0));
    struct pkcs1_other_prime *others = must(malloc((key.other_primes + 1) * sizeof *others));
    ok(pkcs1_private_key_decode(der, der_len, &key, others, key.other_primes));
    put("n", key.modulus);
    put("e", key.public_exponent);
    put("d", key.private_exponent);
    put("p", key.prime1);
    put("q", key.prime2);
    put("dp", key.exponent1);
    put("dq", key.exponent2);
    put("qi", key.coefficient);
    for (size_t i = 0; i < key.other_primes; i++) {
        put("r", others[i].prime);
        put("d", others[i].exponent);
        put("t", others[i].coefficient);
    }
    ENCODE(pkcs1_private_key_encode, &key, others, key.other_primes);
    free(others);
}

static void container(void) {
    struct pkcs1_private_key_info info;
    struct pkcs1_private_key key;
    ok(pkcs1_private_key_info_decode(der, der_len, &info, &key, NULL, 0));
    put("n", key.modulus);
    ENCODE(pkcs1_private_key_info_encode, &info);
}

static void pss(void) {
    struct pkcs1_pss_params params;
    ok(pkcs1_pss_params_decode(der, der_len, &params));
    put_algorithm("hash", &params.hash);
    if (params.mask_gen.has_hash)
        put_algorithm("mask", &params.mask_gen.hash);
    printf("salt=%u\n", params.salt_len);
    ENCODE(pkcs1_pss_params_encode, &params);
}

static void oaep(void) {
    struct pkcs1_oaep_params params;
    ok(pkcs1_oaep_params_decode(der, der_len, &params));
    put_algorithm("hash", &params.hash);
    if (params.mask_gen.has_hash)
        put_algorithm("mask", &params.mask_gen.hash);
    put_algorithm("source", &params.p_source);
    ENCODE(pkcs1_oaep_params_encode, &params);
}

int main(int argc, char **argv) {
    static const struct { const char *name; void (*read)(void); } kinds[] = {
        {"pub", public_key}, {"priv", private_key}, {"p8", container}, {"pss", pss}, {"oaep", oaep}};
    if (argc != 3 && argc != 4) {
        fputs("usage: read_key KIND FILE [OUT]\n", stderr);
        return 2;
    }
    FILE *file = must(fopen(argv[2], "rb"));
    der = must(malloc(1 << 20));
    der_len = fread(der, 1, 1 << 20, file);
    fclose(file);
    for (size_t i = 0; i < sizeof kinds / sizeof kinds[0]; i++) {
        if (strcmp(argv[1], kinds[i].name) != 0)
            continue;
        kinds[i].read();
        if (argc == 4) {
            file = must(fopen(argv[3], "wb"));
            if (fwrite(again, 1, again_len, file) != again_len || fclose(file) != 0)
                return 1;
        }
        free(again);
        free(der);
        return 0;
    }
    fputs("read_key: an unknown kind\n", stderr);
    return 2;
}
