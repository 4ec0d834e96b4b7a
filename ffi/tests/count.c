/* count KEYS: makes some calls of pkcs1.h, each once on an input, while callgrind counts instructions. KEYS is the
 * folder of the keys that OpenSSL made, ffi/tests/keys. count.sh runs this. */
#include "pkcs1.h"
#include "test.h"
#include <string.h>
#include <valgrind/callgrind.h>

/* Linked with --wrap in place of the functions that the library asks for. What they do depends on the C library and the
 * processor, so it isn't counted. A call of one counts the same for any number of octets. */
#define UNCOUNTED(type, call, parameters, ...)                                                                        \
    type __real_##call parameters;                                                                                    \
    type __wrap_##call parameters;                                                                                    \
    type __wrap_##call parameters {                                                                                   \
        CALLGRIND_TOGGLE_COLLECT;                                                                                     \
        type given = __real_##call(__VA_ARGS__);                                                                      \
        CALLGRIND_TOGGLE_COLLECT;                                                                                     \
        return given;                                                                                                 \
    }
UNCOUNTED(void *, memcpy, (void *to, const void *from, size_t n), to, from, n)
UNCOUNTED(void *, memmove, (void *to, const void *from, size_t n), to, from, n)
UNCOUNTED(void *, memset, (void *to, int octet, size_t n), to, octet, n)
UNCOUNTED(int, memcmp, (const void *left, const void *right, size_t n), left, right, n)
UNCOUNTED(int, bcmp, (const void *left, const void *right, size_t n), left, right, n)

/* Makes the call on the input with the name `input`. It must return `want`. */
#define COUNT(want, call, ...)                                                                                        \
    do {                                                                                                              \
        char name[96];                                                                                                \
        snprintf(name, sizeof name, "%s %s", #call, input);                                                           \
        CALLGRIND_ZERO_STATS;                                                                                         \
        CALLGRIND_TOGGLE_COLLECT;                                                                                     \
        uint32_t given = call(__VA_ARGS__);                                                                           \
        CALLGRIND_TOGGLE_COLLECT;                                                                                     \
        CALLGRIND_DUMP_STATS_AT(name);                                                                                \
        CHECK(given == (want));                                                                                       \
    } while (0)

enum { ROOM = 2048, OTHERS = 3 };
static uint8_t out[ROOM];
static size_t len;

/* What was written is what was read. */
static void check_written(const uint8_t *der, size_t der_len) {
    CHECK(len == der_len && memcmp(out, der, len) == 0);
}

static void public_key(const char *input, const uint8_t *der, size_t der_len) {
    struct pkcs1_public_key key;
    COUNT(PKCS1_OK, pkcs1_public_key_decode, der, der_len, &key);
    COUNT(PKCS1_OK, pkcs1_public_key_encode, &key, out, sizeof out, &len);
    check_written(der, der_len);
    COUNT(key.modulus.len == 1 ? 3 : 2048, pkcs1_bit_len, key.modulus);
}

static void private_key(const char *input, const uint8_t *der, size_t der_len) {
    struct pkcs1_private_key key;
    struct pkcs1_other_prime others[OTHERS];
    COUNT(PKCS1_OK, pkcs1_private_key_decode, der, der_len, &key, others, OTHERS);
    COUNT(PKCS1_OK, pkcs1_private_key_encode, &key, others, key.other_primes, out, sizeof out, &len);
    check_written(der, der_len);
}

static void container(const char *input, const uint8_t *der, size_t der_len) {
    struct pkcs1_private_key_info info;
    struct pkcs1_private_key key;
    COUNT(PKCS1_OK, pkcs1_private_key_info_decode, der, der_len, &info, &key, NULL, 0);
    COUNT(PKCS1_OK, pkcs1_private_key_info_encode, &info, out, sizeof out, &len);
    check_written(der, der_len);
}

#define PARAMS(name, type, of)                                                                                        \
    static void name(const char *input, const uint8_t *der, size_t der_len) {                                        \
        struct pkcs1_##type params;                                                                                   \
        COUNT(PKCS1_OK, pkcs1_##of##_decode, der, der_len, &params);                                                  \
        COUNT(PKCS1_OK, pkcs1_##of##_decode_strict, der, der_len, &params);                                           \
        COUNT(PKCS1_OK, pkcs1_##of##_encode, &params, out, sizeof out, &len);                                         \
        check_written(der, der_len);                                                                                  \
    }
PARAMS(pss, pss_params, pss_params)
PARAMS(pss_algorithm, pss_params, pss_algorithm)
PARAMS(oaep, oaep_params, oaep_params)

static void questions(const char *input) {
    struct pkcs1_pss_params pss_params;
    struct pkcs1_oaep_params oaep_params;
    struct pkcs1_bytes label;
    pkcs1_pss_params_init(&pss_params, &pkcs1_oid_sha256, 32);
    pkcs1_oaep_params_init(&oaep_params, &pkcs1_oid_sha256, NULL, 0);
    COUNT(true, pkcs1_pss_is, &pss_params, &pkcs1_oid_sha256);
    COUNT(true, pkcs1_oaep_is, &oaep_params, &pkcs1_oid_sha256);
    COUNT(true, pkcs1_algorithm_is, &pss_params.hash, &pkcs1_oid_sha256);
    COUNT(true, pkcs1_oaep_label, &oaep_params, &label);
    COUNT(true, pkcs1_pss_means_same, &pss_params, &pss_params);
    COUNT(true, pkcs1_oaep_means_same, &oaep_params, &oaep_params);
    COUNT(true, pkcs1_algorithm_is_same_hash, &pss_params.hash, &oaep_params.hash);
}

/* Is compiled to no instruction, so its count is what each other has besides its call. */
static inline uint32_t nothing(uint32_t given) { return given; }

static void no_call(const char *input) {
    COUNT(0, nothing, 0);
}

#define SMALL_KEY "301b02010002010702010302010502010b02010d020102020104020106"
#define FIVE_PRIMES                                                                                                   \
    "303e02010102010702010302010502010b02010d020102020104020106"                                                      \
    "3021300902011102010202010330090201130201030201043009020115020104020105"
#define SHA224 "300d06096086480165030402040500"
#define SHA256 "300d06096086480165030402010500"
#define SHA3_256 "300d06096086480165030402080500"
#define MGF1 "06092a864886f70d010108"
#define OF_ONE_HASH(hash) "a00f" hash "a11c301a" MGF1 hash
#define PSS_SHA256 "3034" OF_ONE_HASH(SHA256) "a203020120"

/* The octets are in hexadecimal, or in the file of this name. */
static const struct {
    void (*count)(const char *input, const uint8_t *der, size_t der_len);
    const char *input, *octets;
} rows[] = {
    {public_key, "small", "3006020107020103"},
    {public_key, "2048", "pub2.der"},
    {private_key, "small", SMALL_KEY},
    {private_key, "small_five_primes", FIVE_PRIMES},
    {private_key, "2048", "priv2.der"},
    {private_key, "2048_three_primes", "priv3.der"},
    {container, "small", "3031020100300d06092a864886f70d0101010500041d" SMALL_KEY},
    {container, "2048", "p8_2.der"},
    {pss, "defaults", "3000"},
    {pss, "sha1_salt_32", "3005a203020120"},
    {pss, "sha224", "3034" OF_ONE_HASH(SHA224) "a20302011c"},
    {pss, "sha256", PSS_SHA256},
    {pss, "sha256_mgf1_sha1", "3016a00f" SHA256 "a203020120"},
    {pss, "sha3_256", "3034" OF_ONE_HASH(SHA3_256) "a203020120"},
    {pss_algorithm, "sha256", "304106092a864886f70d01010a" PSS_SHA256},
    {oaep, "defaults", "3000"},
    {oaep, "sha256", "302f" OF_ONE_HASH(SHA256)},
    {oaep, "sha256_label", "3045" OF_ONE_HASH(SHA256) "a214301206092a864886f70d01010904056c6162656c"},
};

/* Puts the octets into `der`, and returns how many they are. */
static size_t read_octets(const char *keys, const char *octets, uint8_t *der) {
    size_t count = 0;
    if (strstr(octets, ".der") == NULL) {
        for (; sscanf(octets + 2 * count, "%2hhx", &der[count]) == 1; count++)
            CHECK(count + 1 < ROOM);
        return count;
    }
    char path[4096];
    snprintf(path, sizeof path, "%s/%s", keys, octets);
    FILE *file = fopen(path, "rb");
    CHECK(file != NULL);
    count = fread(der, 1, ROOM, file);
    fclose(file);
    return count;
}

int main(int argc, char **argv) {
    CHECK(argc == 2);
    no_call("none");
    for (size_t i = 0; i < sizeof rows / sizeof rows[0]; i++) {
        static uint8_t der[ROOM];
        rows[i].count(rows[i].input, der, read_octets(argv[1], rows[i].octets, der));
    }
    questions("sha256");
    return 0;
}
