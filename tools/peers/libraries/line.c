/* How few instructions would do? Straight lines of C read and write keys, and read PSS parameters, as pkcs1.h does.
 * They fill the same structs and are as strict, but have no kind of an error, and no proof. After a failure the struct
 * may be filled in part. */
#include "steps.h"
#include <string.h>

#define INLINE static inline __attribute__((always_inline))
#define CALL static __attribute__((noinline))
#define NEED(condition)                                                                                               \
    do {                                                                                                              \
        if (__builtin_expect(!(condition), 0))                                                                        \
            return false;                                                                                             \
    } while (0)

/* Whether octets may be an identifier's contents, and whether a tag is known. */
INLINE bool is_identifier(const uint8_t *at, size_t len) {
    NEED(len >= 1 && len <= 39 && at[len - 1] < 0x80);
    for (size_t i = 0; i < len; i++)
        NEED(at[i] != 0x80 || (i > 0 && at[i - 1] >= 0x80));
    return true;
}
INLINE bool is_tag(uint8_t tag) { return (tag & 0x1f) != 0x1f && tag != 0 && tag != 0x20; }

/* The defaults of parameters. */
#define SHA1 {{(const uint8_t *)"\x2b\x0e\x03\x02\x1a", 5}, true, 0x05, {(const uint8_t *)"", 0}}
static const struct pkcs1_algorithm sha1 = SHA1;
static const struct pkcs1_mask_gen mgf1_sha1 = {
    {(const uint8_t *)"\x2a\x86\x48\x86\xf7\x0d\x01\x01\x08", 9}, true, SHA1};

/* What is left to read. */
struct octets {
    const uint8_t *at, *end;
};
INLINE size_t left(const struct octets *from) { return (size_t)(from->end - from->at); }

/* A length in as few octets as possible, of which `more` stand behind the first. */
INLINE bool long_length(struct octets *from, size_t more, size_t *len) {
    size_t value = 0;
    NEED(left(from) >= more);
#pragma GCC unroll 4
    for (size_t i = 0; i < more; i++)
        value = value << 8 | from->at[i];
    from->at += more;
    *len = value;
    return more == 1 ? value >= 0x80 : value >> (8 * more - 8) != 0;
}
/* A length of at most five octets. So many follow. */
INLINE bool length(struct octets *from, size_t *len) {
    NEED(left(from) != 0);
    size_t first = *from->at++;
    if (first < 0x80)
        *len = first;
    else if (first == 0x82)
        NEED(long_length(from, 2, len));
    else if (first == 0x81)
        NEED(long_length(from, 1, len));
    else if (first == 0x83)
        NEED(long_length(from, 3, len));
    else
        NEED(first == 0x84 && long_length(from, 4, len));
    return left(from) >= *len;
}

INLINE bool tagged(struct octets *from, uint8_t tag, struct octets *contents) {
    size_t len;
    NEED(left(from) != 0 && *from->at == tag);
    from->at++;
    NEED(length(from, &len));
    contents->at = from->at;
    contents->end = from->at += len;
    return true;
}

INLINE bool number(struct octets *from, struct pkcs1_bytes *to) {
    struct octets it;
    NEED(tagged(from, 0x02, &it) && left(&it) != 0 && it.at[0] < 0x80);
    if (it.at[0] == 0 && left(&it) > 1) {
        NEED(it.at[1] >= 0x80);
        it.at++;
    }
    to->data = it.at;
    to->len = left(&it);
    return true;
}

INLINE bool whole_sequence(const uint8_t *der, size_t len, struct octets *contents) {
    struct octets all = {der, der + len};
    return tagged(&all, 0x30, contents) && left(&all) == 0;
}

CALL bool read_public_key(const uint8_t *der, size_t len, struct pkcs1_public_key *key) {
    struct octets in;
    NEED(whole_sequence(der, len, &in) && number(&in, &key->modulus) && number(&in, &key->public_exponent));
    return left(&in) == 0;
}

/* The other primes: all are read, and those for which there is room are kept. */
CALL bool other_primes(struct octets in, struct pkcs1_other_prime *others, size_t room,
                                                   size_t *count) {
    struct octets list, one;
    NEED(tagged(&in, 0x30, &list) && left(&in) == 0 && left(&list) != 0);
    for (*count = 0; left(&list) != 0; ++*count) {
        struct pkcs1_other_prime it;
        NEED(tagged(&list, 0x30, &one) && number(&one, &it.prime) && number(&one, &it.exponent));
        NEED(number(&one, &it.coefficient) && left(&one) == 0);
        if (*count < room)
            others[*count] = it;
    }
    return true;
}

CALL bool read_private_key(const uint8_t *der, size_t len, struct pkcs1_private_key *key,
                             struct pkcs1_other_prime *others, size_t room) {
    struct octets in;
    NEED(whole_sequence(der, len, &in));
    NEED(left(&in) >= 3 && in.at[0] == 2 && in.at[1] == 1 && in.at[2] <= 1);
    bool more = in.at[2] == 1;
    in.at += 3;
    NEED(number(&in, &key->modulus) && number(&in, &key->public_exponent) && number(&in, &key->private_exponent));
    NEED(number(&in, &key->prime1) && number(&in, &key->prime2) && number(&in, &key->exponent1));
    NEED(number(&in, &key->exponent2) && number(&in, &key->coefficient));
    key->other_primes = 0;
    return more ? other_primes(in, others, room, &key->other_primes) : left(&in) == 0;
}

INLINE bool identifier(struct octets *from, struct pkcs1_bytes *to) {
    struct octets it;
    NEED(tagged(from, 0x06, &it) && is_identifier(it.at, left(&it)));
    to->data = it.at;
    to->len = left(&it);
    return true;
}

/* What a SEQUENCE of an identifier and parameters holds. */
INLINE bool algorithm(struct octets in, struct pkcs1_algorithm *to) {
    size_t len = 0;
    NEED(identifier(&in, &to->oid));
    to->has_parameters = left(&in) != 0;
    to->tag = 0;
    to->parameters.data = in.at;
    if (to->has_parameters) {
        to->tag = *in.at++;
        NEED(is_tag(to->tag) && length(&in, &len) && left(&in) == len);
        to->parameters.data = in.at;
    }
    to->parameters.len = len;
    return true;
}
INLINE bool mask_generation(struct octets in, struct pkcs1_mask_gen *to) {
    static const uint8_t none[1];
    struct octets hash;
    NEED(identifier(&in, &to->oid));
    to->has_hash = left(&in) != 0;
    if (to->has_hash)
        return tagged(&in, 0x30, &hash) && left(&in) == 0 && algorithm(hash, &to->hash);
    to->hash = (struct pkcs1_algorithm){{none, 0}, false, 0, {none, 0}};
    return true;
}

/* A field with this tag, if it is next: what stands in the value that it holds. */
INLINE bool is_next(const struct octets *from, uint8_t tag) { return left(from) != 0 && *from->at == tag; }
INLINE bool field(struct octets *from, uint8_t tag, struct octets *contents) {
    struct octets whole;
    return tagged(from, tag, &whole) && tagged(&whole, 0x30, contents) && left(&whole) == 0;
}
INLINE bool small(struct octets *from, uint8_t tag, uint8_t *to) {
    struct octets whole;
    struct pkcs1_bytes it;
    NEED(tagged(from, tag, &whole) && number(&whole, &it) && left(&whole) == 0 && it.len == 1);
    *to = *it.data;
    return true;
}
CALL bool read_pss(const uint8_t *der, size_t len, struct pkcs1_pss_params *to) {
    struct octets in, it;
    NEED(whole_sequence(der, len, &in));
    if (is_next(&in, 0xa0))
        NEED(field(&in, 0xa0, &it) && algorithm(it, &to->hash));
    else
        to->hash = sha1;
    if (is_next(&in, 0xa1))
        NEED(field(&in, 0xa1, &it) && mask_generation(it, &to->mask_gen));
    else
        to->mask_gen = mgf1_sha1;
    to->salt_len = 20;
    to->trailer_field = 1;
    NEED(!is_next(&in, 0xa2) || small(&in, 0xa2, &to->salt_len));
    NEED(!is_next(&in, 0xa3) || (small(&in, 0xa3, &to->trailer_field) && to->trailer_field == 1));
    return left(&in) == 0;
}

/* Writing: all lengths are known before an octet is written. */
static const size_t most = 4294967295u;
INLINE size_t length_len(size_t len) {
    return len < 0x80 ? 1 : len < 0x100 ? 2 : len < 0x10000 ? 3 : len < 0x1000000 ? 4 : 5;
}
INLINE size_t whole_len(size_t contents) { return 1 + length_len(contents) + contents; }
INLINE uint8_t *put_head(uint8_t *at, uint8_t tag, size_t len) {
    size_t more = length_len(len) - 1;
    *at++ = tag;
    *at++ = (uint8_t)(more == 0 ? len : 0x80 + more);
#pragma GCC unroll 4
    for (size_t i = more; i > 0; i--)
        *at++ = (uint8_t)(len >> (8 * i - 8));
    return at;
}
INLINE uint8_t *put_octets(uint8_t *at, const uint8_t *octets, size_t len) {
    return (uint8_t *)memcpy(at, octets, len) + len;
}

/* A number without zeros in front, and whether one has to stand there. */
struct part {
    const uint8_t *octets;
    size_t len, zero;
};
INLINE bool count_number(struct pkcs1_bytes from, struct part *to, size_t *sum) {
    NEED(from.len != 0);
    for (; __builtin_expect(*from.data == 0, 0) && from.len > 1; from.len--)
        from.data++;
    NEED(from.len <= most);
    *to = (struct part){from.data, from.len, *from.data >> 7};
    *sum += whole_len(from.len + to->zero);
    return true;
}
INLINE uint8_t *put_number(uint8_t *at, const struct part *it) {
    at = put_head(at, 0x02, it->len + it->zero);
    *at = 0;
    return put_octets(at + it->zero, it->octets, it->len);
}

/* The length of a SEQUENCE with these contents, if there is room. */
INLINE bool fits(size_t contents, size_t room, size_t *len) {
    *len = whole_len(contents);
    return *len <= most && *len <= room;
}

CALL bool put_public_key(const struct pkcs1_public_key *key, uint8_t *to, size_t room, size_t *len) {
    struct part modulus, exponent;
    size_t sum = 0;
    NEED(count_number(key->modulus, &modulus, &sum) && count_number(key->public_exponent, &exponent, &sum));
    NEED(fits(sum, room, len));
    put_number(put_number(put_head(to, 0x30, sum), &modulus), &exponent);
    return true;
}

INLINE bool count_prime(const struct pkcs1_other_prime *it, struct part parts[3], size_t *sum) {
    *sum = 0;
    return count_number(it->prime, &parts[0], sum) && count_number(it->exponent, &parts[1], sum) &&
           count_number(it->coefficient, &parts[2], sum);
}
CALL bool put_private_key(const struct pkcs1_private_key *key, const struct pkcs1_other_prime *others, size_t count,
                            uint8_t *to, size_t room, size_t *len) {
    struct part parts[8], three[3];
    size_t sum = 3, list = 0, one;
    NEED(key->other_primes == count);
    for (int i = 0; i < 8; i++)
        NEED(count_number((&key->modulus)[i], &parts[i], &sum));
    for (size_t i = 0; i < count; i++) {
        NEED(count_prime(&others[i], three, &one));
        list += whole_len(one);
    }
    sum += count == 0 ? 0 : whole_len(list);
    NEED(fits(sum, room, len));
    to = put_octets(put_head(to, 0x30, sum), (const uint8_t[3]){2, 1, count != 0}, 3);
    for (int i = 0; i < 8; i++)
        to = put_number(to, &parts[i]);
    if (count != 0)
        to = put_head(to, 0x30, list);
    for (size_t i = 0; i < count; i++) {
        count_prime(&others[i], three, &one);
        to = put_head(to, 0x30, one);
        for (int k = 0; k < 3; k++)
            to = put_number(to, &three[k]);
    }
    return true;
}

/* As the calls of pkcs1.h: 0 if it is done. */
#define line_public_key_decode(...) !read_public_key(__VA_ARGS__)
#define line_public_key_encode(...) !put_public_key(__VA_ARGS__)
#define line_private_key_decode(...) !read_private_key(__VA_ARGS__)
#define line_private_key_encode(...) !put_private_key(__VA_ARGS__)
STEPS(public_key, line_public_key, PUBLIC_KEY_TO, PUBLIC_KEY_FROM)
STEPS(private_key, line_private_key, PRIVATE_KEY_TO, PRIVATE_KEY_FROM)
static uint32_t pss_read(const uint8_t *der, size_t len) {
    static struct pkcs1_pss_params read;
    return !read_pss(der, len, &read);
}
static int pss(const uint8_t *der, size_t der_len, uint8_t *to, size_t room, size_t *len) {
    (void)to, (void)room, (void)len;
    return pss_read(der, der_len) == 0;
}

/* By type, in the order of peers.h: the call, and whether it writes too; and the steps. */
const struct library line_of_c = {"line of C",
                                  {public_key, private_key, private_key, pss},
                                  {1, 1, 1},
                                  {{STEPS_OF(public_key)}, {STEPS_OF(private_key)}, {STEPS_OF(private_key)},
                                   {.read = pss_read}}};
