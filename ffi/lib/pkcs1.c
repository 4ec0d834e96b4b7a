/* The calls of pkcs1.h, over the proved ones of pkcs1_c.h. A proved call must be passed only structs of valid values:
 * nothing in them is null, not even an array of length 0, and each flag is 0 or 1. It fills a local, which is copied on
 * success. It reads the caller's struct if that is whole: nothing in it is null, and each flag is 1. Else it reads a
 * local copy. A container is always copied, as few have attributes. Nothing is allocated.
 *
 * ffi/proof/prove.sh proves with Frama-C that each call does what the proved call does on what was given, stays in
 * bounds, ends, and leaves all else as it was. ffi/proof/pkcs1.acsl.h has the contracts. The comments with @ here are for
 * that proof. */
#include "pkcs1_c.h"
#include <string.h>

/* Stands in front of what few callers need. It is kept out of the functions that call it, where it would take time from
 * all of them. */
#ifdef __GNUC__
#define RARE __attribute__((noinline, cold))
#else
#define RARE
#endif

static const uint8_t no_octets[1] = {0};
#define NO { no_octets, 0 }
#define NO_ALGORITHM { NO, false, 0, NO }
#define NO_MASK_GEN { NO, false, NO_ALGORITHM }
#define NO_PRIME { NO, NO, NO }

static const struct pkcs1_other_prime no_prime = NO_PRIME;

static struct pkcs1_bytes never_null(struct pkcs1_bytes given) {
    if (given.len == 0)
        given.data = no_octets;
    return given;
}

static const uint8_t *input(const uint8_t *der, size_t der_len) {
    return der_len == 0 ? no_octets : der;
}

/* `out`, or if there is no room, a place to which nothing is written. */
static uint8_t *output(uint8_t *out, size_t room) {
    return room == 0 ? (uint8_t *)no_octets : out;
}

/* Whether the octet of a flag isn't 0. A caller in another language may have set it to more than 1. */
static bool is_set(const bool *flag) {
    return *(const uint8_t *)flag != 0;
}

/* Whether it is 1, as C has it. */
static bool is_one(const bool *flag) {
    return *(const uint8_t *)flag == 1;
}

const char *pkcs1_strerror(uint32_t status) {
    struct pkcs1_bytes text = NO;
    pkcs1_c_status_text(status, &text);
    return (const char *)text.data;
}

const char *pkcs1_version(void) {
    struct pkcs1_bytes text = NO;
    pkcs1_c_version(&text);
    return (const char *)text.data;
}

uint64_t pkcs1_bit_len(struct pkcs1_bytes number) {
    if (number.data == NULL)
        return pkcs1_c_bit_len(no_octets, 0);
    return pkcs1_c_bit_len(number.data, number.len);
}

/* A call that reads a value of this type, into a local that holds these fields before. */
#define DECODE(name, type, ...)                                                             \
    uint32_t pkcs1_##name(const uint8_t *der, size_t der_len, struct pkcs1_##type *value) { \
        struct pkcs1_##type read = {__VA_ARGS__};                                           \
        uint32_t status = pkcs1_c_##name(input(der, der_len), der_len, &read);              \
        if (status == PKCS1_OK)                                                             \
            *value = read;                                                                  \
        return status;                                                                      \
    }

/* A call that writes one: the caller's, or a copy. */
#define ENCODE(name, type)                                                                                         \
    RARE static uint32_t copied_##name(const struct pkcs1_##type *value, uint8_t *out, size_t room, size_t *len) { \
        struct pkcs1_##type made = copy_##type(value);                                                             \
        return pkcs1_c_##name(&made, output(out, room), room, len);                                                \
    }                                                                                                              \
    uint32_t pkcs1_##name(const struct pkcs1_##type *value, uint8_t *out, size_t room, size_t *len) {              \
        if (is_whole_##type(value))                                                                                \
            return pkcs1_c_##name(value, output(out, room), room, len);                                            \
        return copied_##name(value, out, room, len);                                                               \
    }

/* A call that compares two. */
#define COMPARE(name, type)                                                                             \
    RARE static bool copied_##name(const struct pkcs1_##type *left, const struct pkcs1_##type *right) { \
        struct pkcs1_##type made_left = copy_##type(left), made_right = copy_##type(right);             \
        return pkcs1_c_##name(&made_left, &made_right);                                                 \
    }                                                                                                   \
    bool pkcs1_##name(const struct pkcs1_##type *left, const struct pkcs1_##type *right) {              \
        if (is_whole_##type(left) && is_whole_##type(right))                                            \
            return pkcs1_c_##name(left, right);                                                         \
        return copied_##name(left, right);                                                              \
    }

/* Public keys. */

DECODE(public_key_decode, public_key, NO, NO)

uint32_t pkcs1_public_key_encode(const struct pkcs1_public_key *key, uint8_t *out, size_t room, size_t *len) {
    if (key->modulus.data != NULL && key->public_exponent.data != NULL)
        return pkcs1_c_public_key_encode(key, output(out, room), room, len);
    struct pkcs1_public_key made = {never_null(key->modulus), never_null(key->public_exponent)};
    return pkcs1_c_public_key_encode(&made, output(out, room), room, len);
}

/* Private keys. */

/* Puts the listed primes into `others`, as many as fit. The elements are first set to empty primes. The proved call
 * asks for valid ones, and the caller's may be uninitialised. */
static void put_others(struct pkcs1_bytes listed, size_t other_primes, struct pkcs1_other_prime *others,
                       size_t others_room) {
    const struct pkcs1_other_prime none = NO_PRIME;
    size_t count = other_primes < others_room ? other_primes : others_room;
    /*@ loop invariant 0 <= i <= count && \forall integer j; 0 <= j < i ==> ok_other(others[j]);
      @ loop assigns i, others[0 .. count - 1];
      @ loop variant count - i; */
    for (size_t i = 0; i < count; i++)
        others[i] = none;
    if (count > 0)
        pkcs1_c_other_primes(listed.data, listed.len, others, count);
}

/* Fills the caller's key and array with what was read. */
static void put_key(const struct pkcs1_private_key *read, struct pkcs1_bytes listed, struct pkcs1_private_key *key,
                    struct pkcs1_other_prime *others, size_t others_room) {
    *key = *read;
    //@ assert rest: \forall integer i; 0 <= i < others_room ==> others[i] == \at(others[i], Pre);
    put_others(listed, read->other_primes, others, others_room);
}

uint32_t pkcs1_private_key_decode(const uint8_t *der, size_t der_len, struct pkcs1_private_key *key,
                                  struct pkcs1_other_prime *others, size_t others_room) {
    struct pkcs1_private_key read = {NO, NO, NO, NO, NO, NO, NO, NO, 0};
    struct pkcs1_bytes listed = NO;
    uint32_t status = pkcs1_c_private_key_decode(input(der, der_len), der_len, &read, &listed);
    if (status == PKCS1_OK)
        put_key(&read, listed, key, others, others_room);
    return status;
}

/* Whether the key may be passed on as it is. */
static inline bool is_whole_key(const struct pkcs1_private_key *given) {
    return given->modulus.data != NULL && given->public_exponent.data != NULL && given->private_exponent.data != NULL &&
        given->prime1.data != NULL && given->prime2.data != NULL && given->exponent1.data != NULL &&
        given->exponent2.data != NULL && given->coefficient.data != NULL;
}

/* A copy of the key in which nothing is null. */
RARE static struct pkcs1_private_key copy_key(const struct pkcs1_private_key *given) {
    struct pkcs1_private_key made = {
        never_null(given->modulus), never_null(given->public_exponent), never_null(given->private_exponent),
        never_null(given->prime1), never_null(given->prime2), never_null(given->exponent1),
        never_null(given->exponent2), never_null(given->coefficient), given->other_primes};
    return made;
}

/* Whether a number of these primes has no octets. Then it may be null, and a proved call may not see it. */
static bool has_empty(const struct pkcs1_other_prime *others, size_t count) {
    /*@ loop invariant 0 <= i <= count && !has_empty_number(others, i);
      @ loop assigns i;
      @ loop variant count - i; */
    for (size_t i = 0; i < count; i++)
        if (others[i].prime.len == 0 || others[i].exponent.len == 0 || others[i].coefficient.len == 0)
            return true;
    return false;
}

/* The status of a number that can't be held, or PKCS1_OK. */
static uint32_t fault(struct pkcs1_bytes number) {
    if (number.len == 0)
        return PKCS1_LENGTH;
    return pkcs1_c_bit_len(number.data, number.len) == UINT64_MAX ? PKCS1_OVERFLOW : PKCS1_OK;
}

/* `status`, or if that is PKCS1_OK, the fault of the next number. */
static uint32_t or_fault(uint32_t status, struct pkcs1_bytes number) {
    return status != PKCS1_OK ? status : fault(number);
}

/* The fault of the first number of the key that has one. */
static uint32_t key_fault(const struct pkcs1_private_key *key) {
    uint32_t status = fault(key->modulus);
    status = or_fault(status, key->public_exponent);
    status = or_fault(status, key->private_exponent);
    status = or_fault(status, key->prime1);
    status = or_fault(status, key->prime2);
    status = or_fault(status, key->exponent1);
    status = or_fault(status, key->exponent2);
    return or_fault(status, key->coefficient);
}

/* `status`, or if that is PKCS1_OK, the fault of the first number of the prime that has one. */
static uint32_t prime_fault(uint32_t status, const struct pkcs1_other_prime *other) {
    status = or_fault(status, other->prime);
    status = or_fault(status, other->exponent);
    return or_fault(status, other->coefficient);
}

/* The fault of the first number that has one: those of the key come first, then those of each prime. */
static uint32_t first_fault(const struct pkcs1_private_key *key, const struct pkcs1_other_prime *others, size_t count) {
    uint32_t status = key_fault(key);
    /*@ loop invariant 0 <= i <= count && status == first_fault_of(*key, others, i);
      @ loop invariant is_fault(status) && (has_empty_number(others, i) ==> status != PKCS1_OK);
      @ loop assigns i, status;
      @ loop variant count - i; */
    for (size_t i = 0; i < count; i++)
        status = prime_fault(status, &others[i]);
    return status;
}

/* Encodes the key with these primes. Their array isn't null, nor is a number in it. */
static uint32_t write_key(const struct pkcs1_private_key *key, const struct pkcs1_other_prime *others,
                          size_t others_len, uint8_t *out, size_t room, size_t *len) {
    uint8_t *place = output(out, room);
    if (is_whole_key(key))
        return pkcs1_c_private_key_encode(key, others, others_len, place, room, len);
    struct pkcs1_private_key made = copy_key(key);
    return pkcs1_c_private_key_encode(&made, others, others_len, place, room, len);
}

uint32_t pkcs1_private_key_encode(const struct pkcs1_private_key *key, const struct pkcs1_other_prime *others,
                                  size_t others_len, uint8_t *out, size_t room, size_t *len) {
    if (key->other_primes != others_len)
        return PKCS1_OTHER_PRIMES;
    if (has_empty(others, others_len))
        return first_fault(key, others, others_len);
    return write_key(key, others_len == 0 ? &no_prime : others, others_len, out, room, len);
}

/* PKCS #8. */

uint32_t pkcs1_private_key_info_decode(const uint8_t *der, size_t der_len, struct pkcs1_private_key_info *info,
                                       struct pkcs1_private_key *key, struct pkcs1_other_prime *others,
                                       size_t others_room) {
    struct pkcs1_private_key_info read = {NO, false, NO};
    struct pkcs1_private_key read_key = {NO, NO, NO, NO, NO, NO, NO, NO, 0};
    struct pkcs1_bytes listed = NO;
    uint32_t status = pkcs1_c_private_key_info_decode(input(der, der_len), der_len, &read, &read_key, &listed);
    if (status == PKCS1_OK) {
        *info = read;
        //@ assert rest: \forall integer i; 0 <= i < others_room ==> others[i] == \at(others[i], Pre);
        //@ assert octets: same_octets{Pre, Here}(listed.data, listed.len);
        put_key(&read_key, listed, key, others, others_room);
    }
    return status;
}

uint32_t pkcs1_private_key_info_encode(const struct pkcs1_private_key_info *info, uint8_t *out, size_t room,
                                       size_t *len) {
    struct pkcs1_private_key_info given = {never_null(info->private_key), false, NO};
    if (is_set(&info->has_attributes)) {
        given.has_attributes = true;
        given.attributes = never_null(info->attributes);
    }
    return pkcs1_c_private_key_info_encode(&given, output(out, room), room, len);
}

/* Algorithms. */

#define OID(name, ...)                                    \
    static const uint8_t octets_##name[] = {__VA_ARGS__}; \
    const struct pkcs1_bytes pkcs1_oid_##name = {octets_##name, sizeof octets_##name}
OID(sha1, 0x2b, 0x0e, 0x03, 0x02, 0x1a);
OID(sha224, 0x60, 0x86, 0x48, 0x01, 0x65, 0x03, 0x04, 0x02, 0x04);
OID(sha256, 0x60, 0x86, 0x48, 0x01, 0x65, 0x03, 0x04, 0x02, 0x01);
OID(sha384, 0x60, 0x86, 0x48, 0x01, 0x65, 0x03, 0x04, 0x02, 0x02);
OID(sha512, 0x60, 0x86, 0x48, 0x01, 0x65, 0x03, 0x04, 0x02, 0x03);
OID(sha512_224, 0x60, 0x86, 0x48, 0x01, 0x65, 0x03, 0x04, 0x02, 0x05);
OID(sha512_256, 0x60, 0x86, 0x48, 0x01, 0x65, 0x03, 0x04, 0x02, 0x06);
OID(mgf1, 0x2a, 0x86, 0x48, 0x86, 0xf7, 0x0d, 0x01, 0x01, 0x08);
OID(p_specified, 0x2a, 0x86, 0x48, 0x86, 0xf7, 0x0d, 0x01, 0x01, 0x09);
OID(rsa_encryption, 0x2a, 0x86, 0x48, 0x86, 0xf7, 0x0d, 0x01, 0x01, 0x01);
OID(rsassa_pss, 0x2a, 0x86, 0x48, 0x86, 0xf7, 0x0d, 0x01, 0x01, 0x0a);
OID(rsaes_oaep, 0x2a, 0x86, 0x48, 0x86, 0xf7, 0x0d, 0x01, 0x01, 0x07);

bool pkcs1_oid_equal(const struct pkcs1_bytes *left, const struct pkcs1_bytes *right) {
    return left->len == right->len && (left->len == 0 || memcmp(left->data, right->data, left->len) == 0);
}

/* Whether the algorithm may be passed on as it is. */
static inline bool is_whole_algorithm(const struct pkcs1_algorithm *given) {
    return given->oid.data != NULL && is_one(&given->has_parameters) && given->parameters.data != NULL;
}

/* A copy of the algorithm in which the fields after a false `has_parameters` are empty, and nothing is null. */
RARE static struct pkcs1_algorithm copy_algorithm(const struct pkcs1_algorithm *given) {
    struct pkcs1_algorithm made = NO_ALGORITHM;
    made.oid = never_null(given->oid);
    if (is_set(&given->has_parameters)) {
        made.has_parameters = true;
        made.tag = given->tag;
        made.parameters = never_null(given->parameters);
    }
    return made;
}

/* Looks at copies of both. */
RARE static bool copied_algorithm_is(const struct pkcs1_algorithm *given, const struct pkcs1_bytes *oid) {
    struct pkcs1_bytes octets = never_null(*oid);
    struct pkcs1_algorithm made = copy_algorithm(given);
    return pkcs1_c_algorithm_is(&made, &octets);
}

bool pkcs1_algorithm_is(const struct pkcs1_algorithm *given, const struct pkcs1_bytes *oid) {
    if (oid->data != NULL && is_whole_algorithm(given))
        return pkcs1_c_algorithm_is(given, oid);
    return copied_algorithm_is(given, oid);
}

COMPARE(algorithm_is_same_hash, algorithm)

/* The same for a mask generation function, which holds an algorithm. */
static inline bool is_whole_mask_gen(const struct pkcs1_mask_gen *given) {
    return given->oid.data != NULL && is_one(&given->has_hash) && is_whole_algorithm(&given->hash);
}

RARE static struct pkcs1_mask_gen copy_mask_gen(const struct pkcs1_mask_gen *given) {
    struct pkcs1_mask_gen made = NO_MASK_GEN;
    made.oid = never_null(given->oid);
    if (is_set(&given->has_hash)) {
        made.has_hash = true;
        made.hash = copy_algorithm(&given->hash);
    }
    return made;
}

/* Looks at copies of all. */
RARE static bool both_copied_use(const struct pkcs1_algorithm *hash, const struct pkcs1_mask_gen *mask_gen,
                                 const struct pkcs1_bytes *oid) {
    struct pkcs1_bytes octets = never_null(*oid);
    struct pkcs1_algorithm made_hash = copy_algorithm(hash);
    struct pkcs1_mask_gen made_mask_gen = copy_mask_gen(mask_gen);
    return pkcs1_c_uses_hash(&made_hash, &made_mask_gen, &octets);
}

/* Whether the hash function has this identifier, and the mask generation function is MGF1 with the same one. */
static bool both_use(const struct pkcs1_algorithm *hash, const struct pkcs1_mask_gen *mask_gen,
                     const struct pkcs1_bytes *oid) {
    if (oid->data != NULL && is_whole_algorithm(hash) && is_whole_mask_gen(mask_gen))
        return pkcs1_c_uses_hash(hash, mask_gen, oid);
    return both_copied_use(hash, mask_gen, oid);
}

static struct pkcs1_algorithm with_null(struct pkcs1_bytes oid) {
    struct pkcs1_algorithm made = {oid, true, 0x05, NO};
    return made;
}

static struct pkcs1_mask_gen mgf1(struct pkcs1_bytes hash) {
    struct pkcs1_mask_gen made = {pkcs1_oid_mgf1, true, with_null(hash)};
    return made;
}

/* Parameters. They are whole, and copied, as what they hold is. */

static inline bool is_whole_pss_params(const struct pkcs1_pss_params *given) {
    return is_whole_algorithm(&given->hash) && is_whole_mask_gen(&given->mask_gen);
}

RARE static struct pkcs1_pss_params copy_pss_params(const struct pkcs1_pss_params *given) {
    struct pkcs1_pss_params made = {
        copy_algorithm(&given->hash), copy_mask_gen(&given->mask_gen), given->salt_len, given->trailer_field};
    return made;
}

bool pkcs1_pss_is(const struct pkcs1_pss_params *params, const struct pkcs1_bytes *hash) {
    return both_use(&params->hash, &params->mask_gen, hash);
}

COMPARE(pss_means_same, pss_params)
DECODE(pss_params_decode, pss_params, NO_ALGORITHM, NO_MASK_GEN, 0, 0)
DECODE(pss_params_decode_strict, pss_params, NO_ALGORITHM, NO_MASK_GEN, 0, 0)
DECODE(pss_algorithm_decode, pss_params, NO_ALGORITHM, NO_MASK_GEN, 0, 0)
DECODE(pss_algorithm_decode_strict, pss_params, NO_ALGORITHM, NO_MASK_GEN, 0, 0)
ENCODE(pss_params_encode, pss_params)
ENCODE(pss_algorithm_encode, pss_params)

void pkcs1_pss_params_init(struct pkcs1_pss_params *params, const struct pkcs1_bytes *hash, uint8_t salt_len) {
    struct pkcs1_pss_params made = {with_null(*hash), mgf1(*hash), salt_len, 1};
    *params = made;
}

static inline bool is_whole_oaep_params(const struct pkcs1_oaep_params *given) {
    return is_whole_algorithm(&given->hash) && is_whole_mask_gen(&given->mask_gen) &&
        is_whole_algorithm(&given->p_source);
}

RARE static struct pkcs1_oaep_params copy_oaep_params(const struct pkcs1_oaep_params *given) {
    struct pkcs1_oaep_params made = {
        copy_algorithm(&given->hash), copy_mask_gen(&given->mask_gen), copy_algorithm(&given->p_source)};
    return made;
}

bool pkcs1_oaep_is(const struct pkcs1_oaep_params *params, const struct pkcs1_bytes *hash) {
    return both_use(&params->hash, &params->mask_gen, hash);
}

COMPARE(oaep_means_same, oaep_params)
DECODE(oaep_params_decode, oaep_params, NO_ALGORITHM, NO_MASK_GEN, NO_ALGORITHM)
DECODE(oaep_params_decode_strict, oaep_params, NO_ALGORITHM, NO_MASK_GEN, NO_ALGORITHM)
DECODE(oaep_algorithm_decode, oaep_params, NO_ALGORITHM, NO_MASK_GEN, NO_ALGORITHM)
DECODE(oaep_algorithm_decode_strict, oaep_params, NO_ALGORITHM, NO_MASK_GEN, NO_ALGORITHM)
ENCODE(oaep_params_encode, oaep_params)
ENCODE(oaep_algorithm_encode, oaep_params)

/* Looks for the label in a copy of the source. */
RARE static bool label_of_copied(const struct pkcs1_algorithm *source, struct pkcs1_bytes *label) {
    struct pkcs1_algorithm made = copy_algorithm(source);
    return pkcs1_c_oaep_label(&made, label);
}

bool pkcs1_oaep_label(const struct pkcs1_oaep_params *params, struct pkcs1_bytes *label) {
    const struct pkcs1_algorithm *source = &params->p_source;
    struct pkcs1_bytes found = NO;
    bool has_label =
        is_whole_algorithm(source) ? pkcs1_c_oaep_label(source, &found) : label_of_copied(source, &found);
    if (has_label)
        *label = found;
    return has_label;
}

void pkcs1_oaep_params_init(struct pkcs1_oaep_params *params, const struct pkcs1_bytes *hash, const uint8_t *label,
                            size_t label_len) {
    struct pkcs1_bytes given = {label, label_len};
    struct pkcs1_algorithm source = {pkcs1_oid_p_specified, true, 0x04, never_null(given)};
    struct pkcs1_oaep_params made = {with_null(*hash), mgf1(*hash), source};
    *params = made;
}
