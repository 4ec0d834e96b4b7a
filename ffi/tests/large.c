/* What is longer than a few bits can tell: inputs, numbers, labels and identifiers over 255, 4096 and 65536 octets, and
 * where a size has more than 32 bits, over 4294967295 octets, of which only the first are touched. WATCHED leaves the
 * longest out, as then each octet is touched. */
#define _DEFAULT_SOURCE
#include "test.h"
#include <string.h>

enum { LONG = 70000 };
static uint8_t ones[10000000];

#if SIZE_MAX > UINT32_MAX && defined __linux__ && !defined WATCHED
#include <sys/mman.h>
/* These octets, with 4 GB of zeros behind them, until the next call. NULL where there is no room for that, which a line
 * says. */
static uint8_t *with_zeros(const uint8_t *octets, size_t len) {
    static uint8_t *made;
    static bool tried;
    if (!tried) {
        made = mmap(NULL, ((size_t)1 << 32) + LONG * 2, PROT_READ | PROT_WRITE,
                    MAP_PRIVATE | MAP_ANONYMOUS | MAP_NORESERVE, -1, 0);
        if (made == MAP_FAILED) {
            made = NULL;
            puts("c: inputs past 4 GB aren't tried: there is no room for them");
        }
    }
    tried = true;
    if (made == NULL)
        return NULL;
    memset(made, 0, LONG * 2);
    return memcpy(made, octets, len);
}
#else
static uint8_t *with_zeros(const uint8_t *octets, size_t len) {
    (void)octets, (void)len;
    return NULL;
}
#endif

/* A value of this kind with parts of so many octets. `key` has room for the DER of one. */
static union value value_of(const char *kind, size_t len, uint8_t *key) {
    struct pkcs1_bytes part = {ones, len};
    union value made, inner;
    memset(&made, 0, sizeof made);
    if (strncmp(kind, "pss", 3) == 0) {
        pkcs1_pss_params_init(&made.pss, &pkcs1_oid_sha256, 0);
        made.pss.hash.tag = made.pss.mask_gen.hash.tag = 0x30;
        made.pss.hash.parameters = made.pss.mask_gen.hash.parameters = part;
    } else if (strncmp(kind, "oaep", 4) == 0) {
        pkcs1_oaep_params_init(&made.oaep, &pkcs1_oid_sha256, part.data, part.len);
    } else if (strcmp(kind, "info") != 0) {
        struct pkcs1_bytes *field;
        made.priv.key.other_primes = 1;
        for (size_t i = 0; (field = next_field(kind, &made, &i)) != NULL;)
            *field = part;
    } else {
        inner = value_of("priv", len, NULL);
        made.priv.info.private_key.data = key;
        CHECK(write_row("priv", &inner, key, 12 * len + 100, &made.priv.info.private_key.len) == PKCS1_OK);
        made.priv.info.has_attributes = true;
        made.priv.info.attributes.len = 0;
    }
    return made;
}

/* Written with exact room, and read back. With 4 GB behind it, it is longer than any encoding. */
static void written_and_read(const char *kind, size_t part_len) {
    uint8_t *key = filled(12 * part_len + 100);
    union value given = value_of(kind, part_len, key), read;
    size_t need = 0, len;
    CHECK(write_row(kind, &given, NULL, 0, &need) == PKCS1_NO_ROOM && need > part_len);
    uint8_t *out = filled(need), *again = filled(need + LONG), *far;
    CHECK(write_row(kind, &given, out, need - 1, &len) == PKCS1_NO_ROOM && len == need && out[0] == 0xa5);
    CHECK(write_row(kind, &given, out, need, &len) == PKCS1_OK && len == need);
    CHECK(read_row(kind, out, need, &read) == PKCS1_OK);
    CHECK(write_row(kind, &read, again, need + LONG, &len) == PKCS1_OK && len == need && memcmp(again, out, need) == 0);
    if (need <= LONG * 2 && (far = with_zeros(out, need)) != NULL) {
        CHECK(read_row(kind, far, need, &read) == PKCS1_OK);
        CHECK(read_row(kind, far, (size_t)((uint64_t)need + UINT32_MAX + 1), &read) == PKCS1_OVERFLOW);
    }
    free(key);
    free(out);
    free(again);
}

static void bit_lengths(void) {
    struct pkcs1_bytes number = {ones, LONG};
    CHECK(pkcs1_bit_len(number) == 8 * LONG - 7);
}

static void labels(void) {
    for (size_t len = 250; len <= LONG; len += len < 300 ? 1 : len) {
        struct pkcs1_oaep_params params;
        struct pkcs1_bytes label;
        pkcs1_oaep_params_init(&params, &pkcs1_oid_sha256, ones, len);
        CHECK(pkcs1_oaep_label(&params, &label) && label.data == ones && label.len == len);
    }
}

/* Identifiers and labels of these lengths that are alike, and ones that differ in the last octet, or in length. */
static void identifiers(void) {
    static const size_t lens[] = {1, 8, 9, 10, 15, 16, 38, 39, 40, 128, 255, 256, 257, 65536, LONG};
    uint8_t *octets = malloc(LONG);
    CHECK(octets != NULL);
    memset(octets, 1, LONG);
    for (size_t i = 0; i < sizeof lens / sizeof lens[0]; i++) {
        struct pkcs1_bytes left = {ones, lens[i]}, right = {octets, lens[i]}, shorter = {octets, lens[i] - 1};
        struct pkcs1_pss_params pss, other_pss;
        struct pkcs1_oaep_params oaep, other_oaep;
        pkcs1_pss_params_init(&pss, &left, 32);
        pkcs1_pss_params_init(&other_pss, &right, 32);
        pkcs1_oaep_params_init(&oaep, &left, left.data, left.len);
        pkcs1_oaep_params_init(&other_oaep, &left, right.data, right.len);
        CHECK(pkcs1_oid_equal(&left, &right) && !pkcs1_oid_equal(&left, &shorter));
        CHECK(pkcs1_algorithm_is(&pss.hash, &right) && !pkcs1_algorithm_is(&pss.hash, &shorter));
        CHECK(pkcs1_pss_is(&pss, &right) && !pkcs1_pss_is(&pss, &shorter));
        CHECK(pkcs1_oaep_is(&oaep, &right) && !pkcs1_oaep_is(&oaep, &shorter));
        CHECK(pkcs1_pss_means_same(&pss, &other_pss) && pkcs1_oaep_means_same(&oaep, &other_oaep));
        octets[lens[i] - 1] = 2;
        CHECK(!pkcs1_oid_equal(&left, &right) && !pkcs1_algorithm_is(&pss.hash, &right));
        CHECK(!pkcs1_pss_is(&pss, &right) && !pkcs1_oaep_is(&oaep, &right));
        CHECK(!pkcs1_pss_means_same(&pss, &other_pss) && !pkcs1_oaep_means_same(&oaep, &other_oaep));
        octets[lens[i] - 1] = 1;
    }
    free(octets);
}

/* An identifier of 10 MB, which is read and written as one that is too long, and not copied first. */
static void long_identifier(void) {
    enum { LEN = 9999980 };
    static const uint8_t head[] = {0x30, 0x83, 0x98, 0x96, 0x7b, 0xa0, 0x83, 0x98, 0x96, 0x76,
                                   0x30, 0x83, 0x98, 0x96, 0x71, 6,    0x83, 0x98, 0x96, 0x6c};
    struct pkcs1_pss_params params;
    struct pkcs1_oaep_params oaep;
    struct pkcs1_bytes oid = {ones, LEN};
    uint8_t *der = malloc(LEN + sizeof head);
    size_t len = 77;
    CHECK(der != NULL);
    memset(der, 1, LEN + sizeof head);
    memcpy(der, head, sizeof head);
    CHECK(pkcs1_pss_params_decode(der, LEN + sizeof head, &params) == PKCS1_OID_MALFORMED);
    CHECK(pkcs1_oaep_params_decode_strict(der, LEN + sizeof head, &oaep) == PKCS1_OID_MALFORMED);
    pkcs1_pss_params_init(&params, &oid, 32);
    CHECK(pkcs1_pss_params_encode(&params, der, LEN, &len) == PKCS1_OID_MALFORMED && len == 77);
    free(der);
}

/* A key of 100000 other primes, of which the first are asked for. */
static void many_primes(void) {
    enum { COUNT = 100000, FRONT = 37 };
    static const uint8_t front[FRONT] = {0x30, 0x83, 0x10, 0xc9, 0, 2, 1, 1, 2, 1, 1, 2, 1, 1, 2, 1, 1, 2, 1, 1,
                                         2, 1, 1, 2, 1, 1, 2, 1, 1, 2, 1, 1, 0x30, 0x83, 0x10, 0xc8, 0xe0};
    static const uint8_t prime[] = {0x30, 9, 2, 1, 1, 2, 1, 1, 2, 1, 1};
    struct pkcs1_private_key key;
    struct pkcs1_other_prime others[2];
    size_t len = FRONT + COUNT * sizeof prime;
    uint8_t *der = filled(len);
    memcpy(der, front, FRONT);
    for (size_t i = 0; i < COUNT; i++)
        memcpy(der + FRONT + i * sizeof prime, prime, sizeof prime);
    CHECK(pkcs1_private_key_decode(der, len, &key, others, 2) == PKCS1_OK && key.other_primes == COUNT);
    CHECK(others[1].coefficient.data == der + FRONT + 2 * sizeof prime - 1);
    free(der);
}

/* Of each two numbers that can't be held, the first tells the status: in a key, and in its other prime, if it has one. */
static void first_faults(struct pkcs1_bytes small, struct pkcs1_bytes past) {
    const struct pkcs1_bytes none = {NULL, 0};
    struct pkcs1_private_key key;
    struct pkcs1_other_prime other;
    struct pkcs1_bytes *numbers[] = {
        &key.modulus, &key.public_exponent, &key.private_exponent, &key.prime1, &key.prime2, &key.exponent1,
        &key.exponent2, &key.coefficient, &other.prime, &other.exponent, &other.coefficient};
    for (size_t i = 0; i < 2 * 11 * 11 * 2; i++) {
        size_t others = i % 2, first = i / 4 % 11, second = i / 44, len = 77;
        bool is_past = i / 2 % 2 == 1;
        if (first >= second || (others == 0 && second > 7))
            continue;
        for (size_t at = 0; at < 11; at++)
            *numbers[at] = small;
        key.other_primes = others;
        other.coefficient = none;
        *numbers[first] = is_past ? past : none;
        *numbers[second] = is_past ? none : past;
        uint32_t status = pkcs1_private_key_encode(&key, &other, others, NULL, 0, &len);
        CHECK(status == (is_past ? PKCS1_OVERFLOW : PKCS1_LENGTH) && len == 77);
    }
}

/* Numbers of 512 MB and of over 4 GB. */
static void longest_numbers(void) {
    static const uint8_t one[] = {0x80};
    const uint64_t most = UINT32_MAX;
    uint8_t *far = with_zeros(one, 1);
    size_t len = 77;
    if (far == NULL)
        return;
    struct pkcs1_bytes small = {one, 1}, large = {far, 0x20000000}, past = {far, (size_t)(most + 2)};
    CHECK(pkcs1_bit_len(large) == most + 1 && pkcs1_bit_len(past) == UINT64_MAX);
    first_faults(small, past);
    struct pkcs1_public_key wide = {{NULL, 0}, past};
    CHECK(pkcs1_public_key_encode(&wide, NULL, 0, &len) == PKCS1_LENGTH && len == 77);
    wide.modulus = small;
    CHECK(pkcs1_public_key_encode(&wide, NULL, 0, &len) == PKCS1_OVERFLOW && len == 77);
    wide.public_exponent.len = (size_t)(most - 16); /* with 17 octets beside it, one is too many */
    CHECK(pkcs1_public_key_encode(&wide, NULL, 0, &len) == PKCS1_OVERFLOW && len == 77);
    wide.public_exponent.len--;
    CHECK(pkcs1_public_key_encode(&wide, NULL, 0, &len) == PKCS1_NO_ROOM && len == most);
}

#ifdef WATCHED
#include "pkcs1_c.h"
/* pkcs1.c never gives the proved call more room than there are primes. */
static void more_room_than_primes(void) {
    static const uint8_t listed[] = {0x30, 9, 2, 1, 1, 2, 1, 1, 2, 1, 1};
    const struct pkcs1_other_prime as_before = {{listed, 1}, {listed, 2}, {listed, 3}};
    struct pkcs1_other_prime others[] = {as_before, as_before};
    pkcs1_c_other_primes(listed, sizeof listed, others, 2);
    CHECK(others[0].prime.data == listed + 4 && others[1].coefficient.len == 3);
}
#endif

void try_large(void) {
#ifdef WATCHED
    more_room_than_primes();
#endif
    memset(ones, 1, sizeof ones);
    for (size_t i = 0; i < KINDS; i++) {
        written_and_read(kinds[i], 1);
        written_and_read(kinds[i], 300);
        written_and_read(kinds[i], LONG);
    }
    bit_lengths();
    labels();
    identifiers();
    written_and_read("pub", sizeof ones / 4);
    written_and_read("oaep", sizeof ones / 4);
    many_primes();
    long_identifier();
    longest_numbers();
}
