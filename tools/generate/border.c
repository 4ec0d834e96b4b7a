/* The calls of pkcs1_c.h, over the proved ones. On a machine that isn't like that of the module, each copies a caller's
 * structs into its layout, and what the proved call filled back. None allocates. */
#include "pkcs1_c.h"

typedef char a_flag_is_an_octet[sizeof(bool) == 1 ? 1 : -1];

/* TAKE declares the place of a struct in the layout of the module. GIVE_BACK copies what was filled there. */
#ifndef PKCS1_FOREIGN
typedef char the_layout_is_that_of_the_module[sizeof(struct pkcs1_oaep_params) == 144 ? 1 : -1];
#define TAKE(own, given, FIELDS) P own = AT(given)
#define GIVE_BACK(given, own, FIELDS) ((void)0)

static u32 encode_key(P key, const struct pkcs1_other_prime *others, size_t count, P out, u64 room, P len) {
    return proved_private_key_encode(key, AT(others), count, out, room, len);
}

void pkcs1_c_other_primes(const uint8_t *listed, size_t listed_len, struct pkcs1_other_prime *others,
                          size_t others_room) {
    proved_other_primes(AT(listed), listed_len, AT(others), others_room);
}
#else
#define TAKE(own, given, FIELDS)                   \
    unsigned char octets_##own[8 * sizeof(FIELDS)]; \
    P own = taken(octets_##own, given, FIELDS)
#define GIVE_BACK(given, own, FIELDS) give_back(given, octets_##own, FIELDS)

/* The fields of each struct: w is an address or a length, o an octet, and a dash goes to where a w can stand. None
 * takes more than 8 octets there. */
#define BYTES "ww"
#define OTHER_PRIME BYTES BYTES BYTES
#define PUBLIC_KEY BYTES BYTES
#define PRIVATE_KEY PUBLIC_KEY OTHER_PRIME OTHER_PRIME "w"
#define INFO BYTES "o-" BYTES
#define ALGORITHM BYTES "oo-" BYTES
#define MASK_GEN BYTES "o-" ALGORITHM
#define PSS ALGORITHM MASK_GEN "oo"
#define OAEP ALGORITHM MASK_GEN ALGORITHM

/* Sizes, places in OTHER_PRIME and PRIVATE_KEY, and the longest array that is copied. */
struct alignment { char octet; size_t word; };
enum {
    WORD = sizeof(size_t), ALIGNMENT = offsetof(struct alignment, word), PRIME = 48, COEFFICIENT = 32, OTHERS = 128,
    MOST_PRIMES = 64
};

/* The next multiple of `to`. */
static size_t up(size_t at, size_t to) {
    return (at + to - 1) / to * to;
}

/* Copies a caller's struct into the layout of the module, and gives its place. */
static P taken(unsigned char *own, const void *given, const char *fields) {
    const unsigned char *from = given;
    size_t at = 0, own_at = 0, word;
    for (; *fields != 0; fields++)
        if (*fields == 'w') {
            memcpy(&word, from + at, WORD);
            put_u64(AT(own + own_at), word);
            at += WORD, own_at += 8;
        } else if (*fields == 'o') {
            own[own_at++] = from[at++];
        } else {
            at = up(at, ALIGNMENT), own_at = up(own_at, 8);
        }
    return AT(own);
}

/* Copies it back. */
static void give_back(void *given, const unsigned char *own, const char *fields) {
    unsigned char *to = given;
    size_t at = 0, own_at = 0, word;
    for (; *fields != 0; fields++)
        if (*fields == 'w') {
            word = (size_t)get_u64(AT(own + own_at));
            memcpy(to + at, &word, WORD);
            at += WORD, own_at += 8;
        } else if (*fields == 'o') {
            to[at++] = own[own_at++];
        } else {
            at = up(at, ALIGNMENT), own_at = up(own_at, 8);
        }
}

/* In a frame of its own, since few keys have other primes. */
APART static u32 encode_with_others(P key, const struct pkcs1_other_prime *others, size_t count, P out, u64 room,
                                    P len) {
    unsigned char own[PRIME * MOST_PRIMES];
    for (size_t i = 0; i < count; i++)
        taken(own + PRIME * i, &others[i], OTHER_PRIME);
    return proved_private_key_encode(key, AT(own), count, out, room, len);
}

/* Of more other primes than the stack should hold it says that there is no memory. */
static u32 encode_key(P key, const struct pkcs1_other_prime *others, size_t count, P out, u64 room, P len) {
    if (count == 0)
        return proved_private_key_encode(key, AT(others), 0, out, room, len);
    if (count > MOST_PRIMES)
        return get_u64(key + OTHERS) == count ? PKCS1_OUT_OF_MEMORY : PKCS1_OTHER_PRIMES;
    return encode_with_others(key, others, count, out, room, len);
}

/* One prime at a time, as there may be any number of them. The next one stands where the coefficient ends. */
void pkcs1_c_other_primes(const uint8_t *listed, size_t listed_len, struct pkcs1_other_prime *others,
                          size_t others_room) {
    P at = AT(listed), end = at + listed_len;
    for (; others_room > 0; others_room--, others++) {
        TAKE(own, others, OTHER_PRIME);
        put_P(own + COEFFICIENT, at);
        put_u64(own + COEFFICIENT + 8, 0);
        proved_other_primes(at, end - at, own, 1);
        if (get_u64(own + COEFFICIENT + 8) == 0)
            return;
        GIVE_BACK(others, own, OTHER_PRIME);
        at = get_P(own + COEFFICIENT) + get_u64(own + COEFFICIENT + 8);
    }
}
#endif

uint64_t pkcs1_c_bit_len(const uint8_t *number, size_t number_len) {
    return proved_bit_len(AT(number), number_len);
}

#define DECODER(name, type, FIELDS)                                                                  \
    uint32_t pkcs1_c_##name(const uint8_t *der, size_t der_len, struct pkcs1_##type *value) {        \
        TAKE(own, value, FIELDS);                                                                    \
        u32 status = proved_##name(AT(der), der_len, own);                                           \
        if (status == PKCS1_OK)                                                                      \
            GIVE_BACK(value, own, FIELDS);                                                           \
        return status;                                                                               \
    }
#define ENCODER(name, type, FIELDS)                                                                             \
    uint32_t pkcs1_c_##name(const struct pkcs1_##type *value, uint8_t *out, size_t room, size_t *len) {         \
        TAKE(own, value, FIELDS);                                                                               \
        TAKE(own_len, len, "w");                                                                                \
        u32 status = proved_##name(own, AT(out), room, own_len);                                                \
        GIVE_BACK(len, own_len, "w");                                                                           \
        return status;                                                                                          \
    }
#define PARAMS(name, type, FIELDS)              \
    DECODER(name##_decode, type, FIELDS)        \
    DECODER(name##_decode_strict, type, FIELDS) \
    ENCODER(name##_encode, type, FIELDS)
DECODER(public_key_decode, public_key, PUBLIC_KEY)
ENCODER(public_key_encode, public_key, PUBLIC_KEY)
ENCODER(private_key_info_encode, private_key_info, INFO)
PARAMS(pss_params, pss_params, PSS)
PARAMS(pss_algorithm, pss_params, PSS)
PARAMS(oaep_params, oaep_params, OAEP)
PARAMS(oaep_algorithm, oaep_params, OAEP)

uint32_t pkcs1_c_private_key_decode(const uint8_t *der, size_t der_len, struct pkcs1_private_key *key,
                                    struct pkcs1_bytes *listed) {
    TAKE(own, key, PRIVATE_KEY);
    TAKE(own_listed, listed, BYTES);
    u32 status = proved_private_key_decode(AT(der), der_len, own, own_listed);
    if (status == PKCS1_OK) {
        GIVE_BACK(key, own, PRIVATE_KEY);
        GIVE_BACK(listed, own_listed, BYTES);
    }
    return status;
}

uint32_t pkcs1_c_private_key_info_decode(const uint8_t *der, size_t der_len, struct pkcs1_private_key_info *info,
                                         struct pkcs1_private_key *key, struct pkcs1_bytes *listed) {
    TAKE(own_info, info, INFO);
    TAKE(own, key, PRIVATE_KEY);
    TAKE(own_listed, listed, BYTES);
    u32 status = proved_private_key_info_decode(AT(der), der_len, own_info, own, own_listed);
    if (status == PKCS1_OK) {
        GIVE_BACK(info, own_info, INFO);
        GIVE_BACK(key, own, PRIVATE_KEY);
        GIVE_BACK(listed, own_listed, BYTES);
    }
    return status;
}

uint32_t pkcs1_c_private_key_encode(const struct pkcs1_private_key *key, const struct pkcs1_other_prime *others,
                                    size_t others_len, uint8_t *out, size_t room, size_t *len) {
    TAKE(own, key, PRIVATE_KEY);
    TAKE(own_len, len, "w");
    u32 status = encode_key(own, others, others_len, AT(out), room, own_len);
    GIVE_BACK(len, own_len, "w");
    return status;
}

bool pkcs1_c_algorithm_is(const struct pkcs1_algorithm *algorithm, const struct pkcs1_bytes *oid) {
    TAKE(own, algorithm, ALGORITHM);
    TAKE(own_oid, oid, BYTES);
    return proved_algorithm_is(own, own_oid);
}

bool pkcs1_c_uses_hash(const struct pkcs1_algorithm *hash, const struct pkcs1_mask_gen *mask_gen,
                       const struct pkcs1_bytes *oid) {
    TAKE(own, hash, ALGORITHM);
    TAKE(own_mask_gen, mask_gen, MASK_GEN);
    TAKE(own_oid, oid, BYTES);
    return proved_uses_hash(own, own_mask_gen, own_oid);
}

#define COMPARISON(name, type, FIELDS)                                                          \
    bool pkcs1_c_##name(const struct pkcs1_##type *left, const struct pkcs1_##type *right) {    \
        TAKE(own, left, FIELDS);                                                                \
        TAKE(own_right, right, FIELDS);                                                         \
        return proved_##name(own, own_right);                                                   \
    }
COMPARISON(algorithm_is_same_hash, algorithm, ALGORITHM)
COMPARISON(pss_means_same, pss_params, PSS)
COMPARISON(oaep_means_same, oaep_params, OAEP)

bool pkcs1_c_oaep_label(const struct pkcs1_algorithm *source, struct pkcs1_bytes *label) {
    TAKE(own, source, ALGORITHM);
    TAKE(own_label, label, BYTES);
    bool has_label = proved_oaep_label(own, own_label);
    if (has_label)
        GIVE_BACK(label, own_label, BYTES);
    return has_label;
}

void pkcs1_c_status_text(uint32_t status, struct pkcs1_bytes *text) {
    TAKE(own, text, BYTES);
    proved_status_text(status, own);
    GIVE_BACK(text, own, BYTES);
}

void pkcs1_c_version(struct pkcs1_bytes *text) {
    TAKE(own, text, BYTES);
    proved_version(own);
    GIVE_BACK(text, own, BYTES);
}
