/* test ROWS, or test --version: tests the calls of pkcs1.h. ROWS is crates/pkcs1_vectors/stdin, the worked rows, which
 * rows.c tries. large.c has what is long. Structs to be filled are uninitialised, so that valgrind reports it if they
 * are read. */
#include "../proof/kinds.h"
#include "test.h"
#include "pkcs1.h"
#include <string.h>

static const uint8_t two[] = {0x30, 27, 2, 1, 0, 2, 1, 1, 2, 1, 2, 2, 1, 3, 2, 1, 4, 2, 1, 5, 2, 1, 6, 2, 1, 7, 2, 1, 8};
static const uint8_t three[] = {0x30, 40, 2, 1, 1, 2, 1, 1, 2, 1, 2, 2, 1, 3, 2, 1, 4, 2, 1, 5, 2, 1, 6, 2, 1, 7, 2, 1, 8,
                                0x30, 11, 0x30, 9, 2, 1, 9, 2, 1, 10, 2, 1, 11};

static bool same(struct pkcs1_bytes b, const char *want, size_t n) {
    return b.data != NULL && b.len == n && memcmp(b.data, want, n) == 0;
}

/* Numbers with zero octets in front and without, and one of each bit length up to 4096. */
static void bit_lengths(void) {
    uint8_t octets[512] = {0};
    struct pkcs1_bytes number = {octets, sizeof octets}, null = {NULL, 0}, empty = {octets, 0};
    CHECK(pkcs1_bit_len(number) == 0 && pkcs1_bit_len(null) == 0 && pkcs1_bit_len(empty) == 0);
    for (size_t bit = 0; bit < 8 * sizeof octets; bit++) {
        struct pkcs1_bytes last = {octets + sizeof octets - 1 - bit / 8, bit / 8 + 1};
        octets[sizeof octets - 1 - bit / 8] = (uint8_t)(1 << bit % 8);
        CHECK(pkcs1_bit_len(number) == bit + 1 && pkcs1_bit_len(last) == bit + 1);
    }
}

/* Numbers with zero octets in front are written without them. No number is empty. */
static void public_keys(void) {
    static const uint8_t der[] = {0x30, 0x08, 0x02, 0x03, 0x00, 0xc1, 0x7f, 0x02, 0x01, 0x03};
    struct pkcs1_public_key key = {{(const uint8_t *)"\0\0\xc1\x7f", 4}, {(const uint8_t *)"\3", 1}}, empty = {0};
    uint8_t out[sizeof der];
    size_t len = 99;
    CHECK(pkcs1_public_key_encode(&key, out, sizeof out, &len) == PKCS1_OK && len == sizeof der && memcmp(out, der, len) == 0);
    CHECK(pkcs1_public_key_encode(&empty, out, len, &len) == PKCS1_LENGTH && len == sizeof der && out[0] == 0x30);
    CHECK(pkcs1_public_key_decode(NULL, 0, &key) == PKCS1_INCOMPLETE);
}

/* One octet after this key, or after the last part of it, is refused. */
static void octet_after(const uint8_t *whole, size_t len) {
    uint8_t der[sizeof three + 1] = {0};
    struct pkcs1_private_key key;
    memcpy(der, whole, len);
    CHECK(pkcs1_private_key_decode(der, len + 1, &key, NULL, 0) == PKCS1_TRAILING_DATA);
    der[1]++;
    CHECK(pkcs1_private_key_decode(der, len + 1, &key, NULL, 0) == PKCS1_TRAILING_DATA);
}

/* How many other primes there are is compared before the numbers are looked at. */
static void another_count(void) {
    struct pkcs1_private_key key;
    struct pkcs1_other_prime others[2];
    const struct { const struct pkcs1_other_prime *others; size_t count; } wrong[] = {
        {NULL, 0}, {others, 2}, {others, SIZE_MAX / 16}};
    uint8_t out[64];
    size_t len = 77;
    memset(others, 0, sizeof others);
    CHECK(pkcs1_private_key_decode(three, sizeof three, &key, NULL, 0) == PKCS1_OK && key.other_primes == 1);
    for (size_t i = 0; i < sizeof wrong / sizeof wrong[0]; i++)
        CHECK(pkcs1_private_key_encode(&key, wrong[i].others, wrong[i].count, out, sizeof out, &len) == PKCS1_OTHER_PRIMES);
    key.other_primes = 3;
    CHECK(pkcs1_private_key_encode(&key, others, 2, out, sizeof out, &len) == PKCS1_OTHER_PRIMES && len == 77);
}

/* The key above with this many other primes, in an encoding of fewer than 128 octets. */
static size_t with_others(uint8_t *der, size_t count) {
    size_t len = 27;
    memcpy(der, two, sizeof two);
    der[4] = 1;
    der[len + 2] = 0x30;
    der[len + 3] = (uint8_t)(11 * count);
    for (size_t i = 0; i < count; i++) {
        uint8_t prime[] = {0x30, 9, 2, 1, (uint8_t)(3 * i + 9), 2, 1, (uint8_t)(3 * i + 10), 2, 1, (uint8_t)(3 * i + 11)};
        memcpy(der + len + 4 + 11 * i, prime, sizeof prime);
    }
    der[1] = (uint8_t)(len + 2 + 11 * count);
    return len + 4 + 11 * count;
}

/* Each number of the other primes in turn without octets, null or not: nothing is written. */
static void empty_numbers(const struct pkcs1_private_key *key, const struct pkcs1_other_prime *others) {
    static const struct pkcs1_bytes empty[] = {{NULL, 0}, {two, 0}};
    size_t len = 77;
    uint8_t out[160], *untouched = filled(sizeof out);
    memcpy(out, untouched, sizeof out);
    for (size_t at = 0; at < 6 * key->other_primes; at++) {
        struct pkcs1_other_prime given[8];
        memcpy(given, others, key->other_primes * sizeof *given);
        memcpy((uint8_t *)given + at / 2 * sizeof *empty, &empty[at % 2], sizeof *empty);
        CHECK(pkcs1_private_key_encode(key, given, key->other_primes, out, sizeof out, &len) == PKCS1_LENGTH && len == 77);
        CHECK(memcmp(out, untouched, sizeof out) == 0);
    }
    free(untouched);
}

/* 1 to 8 other primes with room for 0 to 9 of them, in PKCS #8 too. */
static void other_primes(void) {
    for (size_t count = 1; count <= 8; count++) {
        uint8_t der[160], out[160], wrapped[200];
        size_t der_len = with_others(der, count), len, wrapped_len;
        struct pkcs1_private_key_info info = {{der, der_len}, false, {NULL, 0}}, read;
        CHECK(pkcs1_private_key_info_encode(&info, wrapped, sizeof wrapped, &wrapped_len) == PKCS1_OK);
        for (size_t room = 0; room <= 9; room++) {
            struct pkcs1_private_key key, inner;
            struct pkcs1_other_prime *others = filled(room * sizeof *others + 1), *copies = filled(room * sizeof *copies + 1);
            size_t placed = room < count ? room : count;
            CHECK(pkcs1_private_key_decode(der, der_len, &key, others, room) == PKCS1_OK && key.other_primes == count);
            CHECK(pkcs1_private_key_info_decode(wrapped, wrapped_len, &read, &inner, copies, room) == PKCS1_OK);
            CHECK(inner.other_primes == count && same(inner.coefficient, "\10", 1));
            for (size_t i = 0; i < placed; i++) {
                CHECK(others[i].prime.data == der + 35 + 11 * i && others[i].prime.len == 1);
                CHECK(others[i].exponent.data[0] == 3 * i + 10 && others[i].coefficient.data[0] == 3 * i + 11);
                CHECK(copies[i].prime.data == wrapped + wrapped_len - der_len + 35 + 11 * i);
            }
            for (size_t at = placed * sizeof *others; at < room * sizeof *others; at++)
                CHECK(((uint8_t *)others)[at] == 0xa5 && ((uint8_t *)copies)[at] == 0xa5);
            if (room >= count) {
                CHECK(pkcs1_private_key_encode(&key, others, count, out, sizeof out, &len) == PKCS1_OK);
                CHECK(len == der_len && memcmp(out, der, len) == 0);
                empty_numbers(&key, others);
            }
            free(others);
            free(copies);
        }
    }
}

/* Where structs are copied for the proved calls, no more primes are. */
#if defined PKCS1_FOREIGN || SIZE_MAX != UINT64_MAX || __BYTE_ORDER__ != __ORDER_LITTLE_ENDIAN__
enum { MOST_PRIMES = 64 };
#else
enum { MOST_PRIMES = 520 };
#endif

/* A container of this key: all its other primes are read, of which the last begins with this number. */
static void in_a_container(const uint8_t *der, size_t der_len, size_t count) {
    struct pkcs1_private_key_info info = {{der, der_len}, false, {NULL, 0}};
    struct pkcs1_private_key key;
    struct pkcs1_other_prime read[520];
    uint8_t out[8000];
    size_t len;
    CHECK(pkcs1_private_key_info_encode(&info, out, sizeof out, &len) == PKCS1_OK);
    CHECK(pkcs1_private_key_info_decode(out, len, &info, &key, read, count) == PKCS1_OK && key.other_primes == count);
    CHECK(read[count - 1].prime.len == 1 && read[count - 1].prime.data[0] == (uint8_t)count);
}

/* Each number of other primes that is written, up to 520, written and read again; not written, for lack of room or of
 * a number. */
static void many_other_primes(void) {
    uint8_t octets[520], out[8000];
    struct pkcs1_other_prime others[520], read[520];
    for (size_t count = 1; count <= 520; count++) {
        struct pkcs1_private_key key, again;
        size_t len = 0;
        octets[count - 1] = (uint8_t)count;
        others[count - 1].prime = (struct pkcs1_bytes){&octets[count - 1], 1};
        others[count - 1].exponent = (struct pkcs1_bytes){octets, 1};
        others[count - 1].coefficient = others[count - 1].prime;
        CHECK(pkcs1_private_key_decode(two, sizeof two, &key, NULL, 0) == PKCS1_OK);
        key.other_primes = count;
        if (count > MOST_PRIMES) {
            CHECK(pkcs1_private_key_encode(&key, others, count, out, sizeof out, &len) == PKCS1_OUT_OF_MEMORY && len == 0);
            key.modulus.len = 0;
            CHECK(pkcs1_private_key_encode(&key, others, count, out, sizeof out, &len) == PKCS1_OUT_OF_MEMORY && len == 0);
            key.modulus.len = 1;
            others[count - 1].exponent.len = 0;
            CHECK(pkcs1_private_key_encode(&key, others, count, out, sizeof out, &len) == PKCS1_LENGTH && len == 0);
            return;
        }
        CHECK(pkcs1_private_key_encode(&key, others, count, NULL, 0, &len) == PKCS1_NO_ROOM);
        others[count - 1].coefficient = (struct pkcs1_bytes){NULL, 0};
        CHECK(pkcs1_private_key_encode(&key, others, count, out, sizeof out, &len) == PKCS1_LENGTH);
        others[count - 1].coefficient = others[count - 1].prime;
        CHECK(pkcs1_private_key_encode(&key, others, count, out, sizeof out, &len) == PKCS1_OK);
        CHECK(pkcs1_private_key_decode(out, len, &again, read, count) == PKCS1_OK && again.other_primes == count);
        for (size_t i = 0; i < count; i++) {
            CHECK(read[i].prime.len == 1 && read[i].prime.data[0] == (uint8_t)(i + 1) && same(read[i].exponent, "\1", 1));
            CHECK(read[i].coefficient.len == 1 && read[i].coefficient.data[0] == (uint8_t)(i + 1));
        }
        in_a_container(out, len, count);
    }
}

/* Attributes without octets are written, and read again. */
static void no_attributes(void) {
    struct pkcs1_private_key_info info = {{two, sizeof two}, true, {NULL, 0}};
    struct pkcs1_private_key key;
    uint8_t out[64];
    size_t len;
    CHECK(pkcs1_private_key_info_encode(&info, out, sizeof out, &len) == PKCS1_OK && len == 53);
    CHECK(pkcs1_private_key_info_decode(out, len, &info, &key, NULL, 0) == PKCS1_OK && info.has_attributes);
    CHECK(info.attributes.data == out + len && info.attributes.len == 0);
    info.private_key = (struct pkcs1_bytes){two, sizeof two - 1};
    info.has_attributes = false;
    CHECK(pkcs1_private_key_info_encode(&info, out, sizeof out, &len) == PKCS1_INCOMPLETE && len == 53);
}

/* What can't be encoded; identifiers of 39 octets and of more; and each salt. */
static void pss(void) {
    static const uint8_t cut_off[] = {6, 9, 0x2a, 0x86};
    uint8_t ones[40], out[96];
    struct pkcs1_pss_params params, zeros = {0};
    size_t len = 77;
    memset(ones, 1, sizeof ones);
    CHECK(pkcs1_pss_params_encode(&zeros, out, sizeof out, &len) == PKCS1_OID_MALFORMED && len == 77);
    pkcs1_pss_params_init(&params, &pkcs1_oid_sha1, 20);
    for (uint8_t field = 0; field <= 2; field++) {
        params.trailer_field = field;
        CHECK(pkcs1_pss_params_encode(&params, out, 1, &len) == (field == 1 ? PKCS1_NO_ROOM : PKCS1_VALUE));
    }
    params.trailer_field = 1;
    CHECK(pkcs1_pss_params_encode(&params, out, sizeof out, &len) == PKCS1_OK && len == 2 && memcmp(out, "\x30\0", 2) == 0);
    params.hash.oid = (struct pkcs1_bytes){ones, 40};
    CHECK(pkcs1_pss_params_encode(&params, out, sizeof out, &len) == PKCS1_OID_MALFORMED && len == 2);
    params.hash.oid.len = 39;
    CHECK(pkcs1_pss_params_encode(&params, out, 52, &len) == PKCS1_OK && len == 49 && memcmp(out + 8, ones, 39) == 0);
    CHECK(pkcs1_pss_params_decode_strict(out, len, &params) == PKCS1_OK && params.hash.oid.data == out + 8);
    params.hash.oid = (struct pkcs1_bytes){cut_off, sizeof cut_off};
    CHECK(pkcs1_pss_params_encode(&params, out, sizeof out, &len) == PKCS1_OID_MALFORMED && len == 49);
    for (unsigned salt_len = 0; salt_len <= 255; salt_len++) {
        pkcs1_pss_params_init(&params, &pkcs1_oid_sha512, (uint8_t)salt_len);
        CHECK(pkcs1_pss_params_encode(&params, out, sizeof out, &len) == PKCS1_OK);
        CHECK(pkcs1_pss_params_decode_strict(out, len, &params) == PKCS1_OK && params.salt_len == salt_len);
    }
}

/* What stands after a false `has_..` isn't read. */
static void without_parameters(struct pkcs1_algorithm *algorithm) {
    algorithm->has_parameters = false;
    algorithm->tag = 0xa5;
    memset(&algorithm->parameters, 0xa5, sizeof algorithm->parameters);
}
static void without_hash(struct pkcs1_mask_gen *mask_gen) {
    mask_gen->has_hash = false;
    memset(&mask_gen->hash, 0xa5, sizeof mask_gen->hash);
}

static void absent_fields(void) {
    struct pkcs1_oaep_params oaep;
    struct pkcs1_pss_params params;
    struct pkcs1_private_key_info info;
    uint8_t out[64], written[32];
    size_t len;
    memset(&info, 0xa5, sizeof info);
    info.private_key.data = two;
    info.private_key.len = sizeof two;
    info.has_attributes = false;
    CHECK(pkcs1_private_key_info_encode(&info, out, sizeof out, &len) == PKCS1_OK && len == 51);
    pkcs1_pss_params_init(&params, &pkcs1_oid_sha1, 200);
    without_parameters(&params.hash), without_hash(&params.mask_gen);
    CHECK(pkcs1_pss_params_encode(&params, out, sizeof out, &len) == PKCS1_OK);
    CHECK(pkcs1_pss_params_decode_strict(out, len, &params) == PKCS1_OK && params.salt_len == 200);
    pkcs1_oaep_params_init(&oaep, &pkcs1_oid_sha256, NULL, 0);
    without_parameters(&oaep.hash), without_hash(&oaep.mask_gen);
    oaep.p_source.parameters.data = NULL;
    CHECK(pkcs1_oaep_params_encode(&oaep, written, sizeof written, &len) == PKCS1_OK && len == 32);
    CHECK(pkcs1_oaep_params_decode_strict(written, len, &oaep) == PKCS1_OK);
    CHECK(!oaep.mask_gen.has_hash && oaep.mask_gen.hash.oid.len == 0);
    CHECK(!oaep.hash.has_parameters && oaep.hash.tag == 0 && same(oaep.hash.parameters, "", 0));
    CHECK(pkcs1_oid_equal(&oaep.hash.oid, &pkcs1_oid_sha256) && !pkcs1_oid_equal(&oaep.hash.oid, &pkcs1_oid_sha384));
    oaep.p_source.oid.len = 0;
    len = 77;
    CHECK(pkcs1_oaep_params_encode(&oaep, out, sizeof out, &len) == PKCS1_OID_MALFORMED && len == 77);
}

/* Flags with this octet, which isn't 0 and may be more than 1, as a caller in another language can set them, are set. */
static void flags(uint8_t octet) {
    struct pkcs1_private_key_info info = {{two, sizeof two}, true, {NULL, 0}};
    struct pkcs1_pss_params params;
    struct pkcs1_oaep_params oaep;
    struct pkcs1_bytes label;
    uint8_t want[64], out[64];
    size_t want_len, len;
    CHECK(pkcs1_private_key_info_encode(&info, want, sizeof want, &want_len) == PKCS1_OK);
    memset(&info.has_attributes, octet, 1);
    CHECK(pkcs1_private_key_info_encode(&info, out, sizeof out, &len) == PKCS1_OK);
    CHECK(len == want_len && memcmp(out, want, len) == 0);
    pkcs1_pss_params_init(&params, &pkcs1_oid_sha256, 32);
    CHECK(pkcs1_pss_params_encode(&params, want, sizeof want, &want_len) == PKCS1_OK);
    bool *const flags[] = {&params.mask_gen.has_hash, &params.mask_gen.hash.has_parameters, &params.hash.has_parameters};
    for (size_t i = 0; i < 3; i++) {
        pkcs1_pss_params_init(&params, &pkcs1_oid_sha256, 32);
        memset(flags[i], octet, 1);
        CHECK(pkcs1_pss_params_encode(&params, out, sizeof out, &len) == PKCS1_OK);
        CHECK(len == want_len && memcmp(out, want, len) == 0);
    }
    CHECK(pkcs1_algorithm_is(&params.hash, &pkcs1_oid_sha256));
    pkcs1_oaep_params_init(&oaep, &pkcs1_oid_sha256, two, sizeof two);
    memset(&oaep.p_source.has_parameters, octet, 1);
    CHECK(pkcs1_oaep_label(&oaep, &label) && label.data == two && label.len == sizeof two);
}

/* Parameters for each hash function: the constants are the right octets. */
static void made_for_a_hash(void) {
#define NAMED(name, number) {&pkcs1_oid_##name, number},
    static const struct { const struct pkcs1_bytes *oid; uint8_t last; } hashes[] = {NIST_HASHES(NAMED)};
    uint8_t want[] = {0x30, 0x34, 0xa0, 0x0f, 0x30, 0x0d, 6, 9, 0x60, 0x86, 0x48, 1, 0x65, 3, 4, 2, 0, 5, 0,
                      0xa1, 0x1c, 0x30, 0x1a, 6, 9, 0x2a, 0x86, 0x48, 0x86, 0xf7, 0x0d, 1, 1, 8,
                      0x30, 0x0d, 6, 9, 0x60, 0x86, 0x48, 1, 0x65, 3, 4, 2, 0, 5, 0, 0xa2, 3, 2, 1, 32};
    uint8_t out[96];
    size_t len;
    for (size_t i = 0; i < sizeof hashes / sizeof hashes[0]; i++) {
        struct pkcs1_pss_params params;
        struct pkcs1_oaep_params oaep;
        want[1] = 0x34;
        want[16] = want[46] = hashes[i].last;
        pkcs1_pss_params_init(&params, hashes[i].oid, 32);
        CHECK(pkcs1_pss_params_encode(&params, out, sizeof out, &len) == PKCS1_OK && len == sizeof want && memcmp(out, want, len) == 0);
        want[1] = 0x2f;
        pkcs1_oaep_params_init(&oaep, hashes[i].oid, NULL, 0);
        CHECK(pkcs1_oaep_params_encode(&oaep, out, sizeof out, &len) == PKCS1_OK && len == 49 && memcmp(out, want, len) == 0);
        pkcs1_oaep_params_init(&oaep, hashes[i].oid, (const uint8_t *)"label", 5);
        CHECK(pkcs1_oaep_params_encode(&oaep, out, sizeof out, &len) == PKCS1_OK);
        CHECK(pkcs1_oaep_params_decode_strict(out, len, &oaep) == PKCS1_OK && oaep.p_source.tag == 4);
        CHECK(same(oaep.p_source.parameters, "label", 5) && pkcs1_oid_equal(&oaep.p_source.oid, &pkcs1_oid_p_specified));
        CHECK(pkcs1_oaep_params_encode(&oaep, out, 1, &len) == PKCS1_NO_ROOM);
    }
    CHECK(same(pkcs1_oid_rsa_encryption, "\x2a\x86\x48\x86\xf7\x0d\1\1\1", 9));
}

/* One hash function, which OpenSSL writes with NULL in RSASSA-PSS, and without parameters in RSAES-OAEP. */
static void a_hash_function(void) {
    struct pkcs1_pss_params params;
    struct pkcs1_algorithm *hash = &params.hash;
    struct pkcs1_bytes none = {NULL, 0};
    uint8_t out[96];
    size_t len = 77;
    pkcs1_pss_params_init(&params, &pkcs1_oid_sha256, 32);
    CHECK(pkcs1_algorithm_is(hash, &pkcs1_oid_sha256) && !pkcs1_algorithm_is(hash, &pkcs1_oid_sha384));
    without_parameters(hash);
    CHECK(pkcs1_algorithm_is(hash, &pkcs1_oid_sha256) && !pkcs1_algorithm_is(hash, &pkcs1_oid_sha1));
    hash->has_parameters = true;
    hash->tag = 5;
    hash->parameters = pkcs1_oid_sha1;
    CHECK(!pkcs1_algorithm_is(hash, &pkcs1_oid_sha256));
    hash->parameters = none;
    hash->tag = 4;
    CHECK(!pkcs1_algorithm_is(hash, &pkcs1_oid_sha256));
    hash->tag = 5;
    hash->oid = none;
    CHECK(pkcs1_algorithm_is(hash, &none) && !pkcs1_algorithm_is(hash, &pkcs1_oid_sha256));
    CHECK(pkcs1_pss_algorithm_encode(&params, out, sizeof out, &len) == PKCS1_OID_MALFORMED && len == 77);
    hash->oid = pkcs1_oid_sha256;
    CHECK(pkcs1_pss_algorithm_encode(&params, NULL, 0, &len) == PKCS1_NO_ROOM && len == 67);
    CHECK(pkcs1_pss_algorithm_encode(&params, out, 67, &len) == PKCS1_OK && len == 67);
    CHECK(out[2] == 6 && memcmp(out + 4, pkcs1_oid_rsassa_pss.data, pkcs1_oid_rsassa_pss.len) == 0);
    CHECK(memcmp(pkcs1_oid_rsaes_oaep.data, "\x2a\x86\x48\x86\xf7\x0d\1\1\7", 9) == 0 && pkcs1_oid_rsaes_oaep.len == 9);
}

/* Parameters that use one hash function, in MGF1 too, and those that don't. */
static void in_both_places(void) {
    static const struct pkcs1_bytes *sha256 = &pkcs1_oid_sha256, *sha384 = &pkcs1_oid_sha384;
    struct pkcs1_pss_params pss, zeros = {0};
    struct pkcs1_oaep_params oaep, no_fields = {0};
    struct pkcs1_bytes none = {NULL, 0};
    CHECK(!pkcs1_pss_is(&zeros, &none) && !pkcs1_oaep_is(&no_fields, &none));
    pkcs1_pss_params_init(&pss, sha256, 32);
    pkcs1_oaep_params_init(&oaep, sha256, NULL, 0);
    CHECK(pkcs1_pss_is(&pss, sha256) && !pkcs1_pss_is(&pss, sha384) && !pkcs1_pss_is(&pss, &none));
    CHECK(pkcs1_oaep_is(&oaep, sha256) && !pkcs1_oaep_is(&oaep, sha384) && !pkcs1_oaep_is(&oaep, &none));
    without_parameters(&pss.hash), without_parameters(&oaep.mask_gen.hash);
    CHECK(pkcs1_pss_is(&pss, sha256) && pkcs1_oaep_is(&oaep, sha256));
    pss.hash.oid = oaep.hash.oid = *sha384;
    CHECK(!pkcs1_pss_is(&pss, sha256) && !pkcs1_pss_is(&pss, sha384));
    CHECK(!pkcs1_oaep_is(&oaep, sha256) && !pkcs1_oaep_is(&oaep, sha384));
    pss.mask_gen.hash.oid = oaep.mask_gen.hash.oid = *sha384;
    CHECK(pkcs1_pss_is(&pss, sha384) && pkcs1_oaep_is(&oaep, sha384));
    pss.mask_gen.oid = pkcs1_oid_p_specified;
    without_hash(&oaep.mask_gen);
    CHECK(!pkcs1_pss_is(&pss, sha384) && !pkcs1_oaep_is(&oaep, sha384));
}

/* Whether both mean the same, asked in either order. */
#define ALIKE(call, left, right) (call(&(left), &(right)) && call(&(right), &(left)))
#define UNLIKE(call, left, right) (!call(&(left), &(right)) && !call(&(right), &(left)))

/* What no row can say of two: what is behind a false flag isn't read, any octet but 0 sets a flag, an empty one may be
 * null, and what can't be encoded is compared too. */
static void mean_the_same(void) {
    struct pkcs1_pss_params pss, other, zeros;
    struct pkcs1_oaep_params oaep, other_oaep;
    memset(&zeros, 0, sizeof zeros);
    pkcs1_pss_params_init(&pss, &pkcs1_oid_sha256, 32);
    pkcs1_oaep_params_init(&oaep, &pkcs1_oid_sha256, (const uint8_t *)"label", 5);
    other = pss;
    other_oaep = oaep;
    CHECK(ALIKE(pkcs1_pss_means_same, zeros, zeros) && UNLIKE(pkcs1_pss_means_same, zeros, pss));
    CHECK(ALIKE(pkcs1_algorithm_is_same_hash, zeros.hash, zeros.hash));
    CHECK(UNLIKE(pkcs1_algorithm_is_same_hash, zeros.hash, pss.hash));
    memset(&other.hash.has_parameters, 2, 1);
    other.hash.parameters.data = NULL;
    CHECK(ALIKE(pkcs1_algorithm_is_same_hash, pss.hash, other.hash));
    without_parameters(&other.hash), without_parameters(&other_oaep.mask_gen.hash);
    CHECK(ALIKE(pkcs1_algorithm_is_same_hash, pss.hash, other.hash) && ALIKE(pkcs1_pss_means_same, pss, other));
    CHECK(ALIKE(pkcs1_oaep_means_same, oaep, other_oaep));
    other.trailer_field = 2;
    CHECK(UNLIKE(pkcs1_pss_means_same, pss, other));
    pss.trailer_field = 2;
    CHECK(ALIKE(pkcs1_pss_means_same, pss, other));
    without_hash(&other.mask_gen), without_hash(&other_oaep.mask_gen);
    CHECK(UNLIKE(pkcs1_pss_means_same, pss, other) && UNLIKE(pkcs1_oaep_means_same, oaep, other_oaep));
    pss.mask_gen.has_hash = oaep.mask_gen.has_hash = false;
    CHECK(ALIKE(pkcs1_pss_means_same, pss, other) && ALIKE(pkcs1_oaep_means_same, oaep, other_oaep));
}

static void labels(void) {
    struct pkcs1_oaep_params params, no_fields = {0};
    struct pkcs1_bytes label = {NULL, 77};
    pkcs1_oaep_params_init(&params, &pkcs1_oid_sha1, NULL, 0);
    CHECK(same(params.p_source.parameters, "", 0)); /* not null */
    CHECK(!pkcs1_oaep_label(&no_fields, &label) && label.data == NULL && label.len == 77);
    pkcs1_oaep_params_init(&params, &pkcs1_oid_sha1, (const uint8_t *)"label", 5);
    CHECK(pkcs1_oaep_label(&params, &label) && same(label, "label", 5));
    params.p_source.tag = 12;
    params.p_source.parameters.len = 4;
    CHECK(!pkcs1_oaep_label(&params, &label) && same(label, "label", 5));
    params.p_source.tag = 4;
    CHECK(pkcs1_oaep_label(&params, &label) && same(label, "labe", 4));
    params.p_source.oid = pkcs1_oid_mgf1;
    CHECK(!pkcs1_oaep_label(&params, &label) && same(label, "labe", 4));
    params.p_source.oid = pkcs1_oid_p_specified;
    params.p_source.parameters.data = NULL;
    params.p_source.parameters.len = 0;
    CHECK(pkcs1_oaep_label(&params, &label) && same(label, "", 0));
    params.p_source.has_parameters = false;
    label.len = 77;
    CHECK(!pkcs1_oaep_label(&params, &label) && label.len == 77);
}

static void compared(void) {
    uint8_t copy[9];
    struct pkcs1_bytes left = {copy, 9}, shorter = {copy, 8}, none = {NULL, 0}, empty = {copy, 0};
    memcpy(copy, pkcs1_oid_sha256.data, 9);
    CHECK(pkcs1_oid_equal(&left, &pkcs1_oid_sha256) && !pkcs1_oid_equal(&left, &pkcs1_oid_sha384));
    CHECK(!pkcs1_oid_equal(&left, &shorter) && !pkcs1_oid_equal(&shorter, &left));
    CHECK(!pkcs1_oid_equal(&shorter, &pkcs1_oid_sha256) && !pkcs1_oid_equal(&pkcs1_oid_sha256, &shorter));
    CHECK(pkcs1_oid_equal(&none, &empty) && pkcs1_oid_equal(&none, &none) && !pkcs1_oid_equal(&none, &left));
}

static void texts(void) {
    char version[32];
    sprintf(version, "%d.%d.%d", PKCS1_VERSION_MAJOR, PKCS1_VERSION_MINOR, PKCS1_VERSION_PATCH);
    CHECK(strcmp(pkcs1_version(), version) == 0);
    CHECK(strcmp(pkcs1_strerror(PKCS1_TRAILING_DATA),
                 "bytes follow the value, or a field that it does not have: a private key read as a public one, "
                 "perhaps") == 0);
    CHECK(strcmp(pkcs1_strerror(PKCS1_TAG_UNEXPECTED),
                 "another tag was expected: the input may be PEM, PKCS #1, PKCS #8, SubjectPublicKeyInfo or an encrypted "
                 "key") == 0);
    CHECK(strstr(pkcs1_strerror(PKCS1_VALUE), "a public key, perhaps") != NULL);
    CHECK(strstr(pkcs1_strerror(PKCS1_OVERFLOW), "more than four octets") != NULL);
    CHECK(strcmp(pkcs1_strerror(0), "no error") == 0 && strcmp(pkcs1_strerror(256), "another error") == 0);
    CHECK(strcmp(pkcs1_strerror(1000), "another error") == 0 && strcmp(pkcs1_strerror(UINT32_MAX), "another error") == 0);
    CHECK(strcmp(pkcs1_strerror(PKCS1_OTHER_PRIMES), "the other primes are not as many as the key says") == 0);
}

int main(int argc, char **argv) {
    CHECK(argc == 2);
    if (strcmp(argv[1], "--version") == 0)
        return puts(pkcs1_version()) == EOF;
    bit_lengths();
    public_keys();
    octet_after(two, sizeof two), octet_after(three, sizeof three);
    another_count();
    other_primes();
    many_other_primes();
    no_attributes();
    pss();
    absent_fields();
    flags(2), flags(0x80), flags(0xff);
    made_for_a_hash();
    compared();
    a_hash_function();
    in_both_places();
    mean_the_same();
    labels();
    texts();
    try_rows(argv[1]);
    try_large();
    puts("c: ok");
    return 0;
}
