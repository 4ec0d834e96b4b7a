/* What the calls of pkcs1.h answer, as octets: the status, then the parts of the value, each with its length in front,
 * and what is written of it again. */
#include "test.h"
#include <string.h>

enum { OTHERS = 1024, ROOM = 1 << 16 };
static struct pkcs1_other_prime others[OTHERS];
static uint8_t out[ROOM];
static uint8_t *told;

static void octet(unsigned value) {
    *told++ = (uint8_t)value;
}
static void part(struct pkcs1_bytes bytes) {
    for (int shift = 24; shift >= 0; shift -= 8)
        octet((unsigned)(bytes.len >> shift));
    if (bytes.len > 0)
        memcpy(told, bytes.data, bytes.len);
    told += bytes.len;
}
static void tell_key(const struct pkcs1_private_key *key) {
    const struct pkcs1_bytes numbers[] = {key->modulus, key->public_exponent, key->private_exponent, key->prime1,
                                          key->prime2, key->exponent1, key->exponent2, key->coefficient};
    for (size_t i = 0; i < 8; i++)
        part(numbers[i]);
    CHECK(key->other_primes <= OTHERS);
    for (size_t i = 0; i < key->other_primes; i++)
        part(others[i].prime), part(others[i].exponent), part(others[i].coefficient);
}
static void tell_algorithm(const struct pkcs1_algorithm *algorithm) {
    part(algorithm->oid);
    octet(algorithm->has_parameters ? algorithm->tag : 0);
    if (algorithm->has_parameters)
        part(algorithm->parameters);
}
static void tell_mask_gen(const struct pkcs1_mask_gen *mask_gen) {
    part(mask_gen->oid);
    octet(mask_gen->has_hash);
    if (mask_gen->has_hash)
        tell_algorithm(&mask_gen->hash);
}
/* What is written by the call, which takes these arguments in front of those for `out`. */
#define TELL_WRITTEN(call, ...)                                          \
    do {                                                                 \
        size_t written = 0;                                              \
        CHECK(call(__VA_ARGS__, out, ROOM, &written) == PKCS1_OK);       \
        part((struct pkcs1_bytes){out, written});                        \
    } while (0)

/* What was read. Parameters are written alone, and in their algorithm identifier. */
static void tell(const char *kind, const union value *it) {
    struct pkcs1_bytes label;
    if (strcmp(kind, "pub") == 0) {
        part(it->key.modulus), part(it->key.public_exponent);
        TELL_WRITTEN(pkcs1_public_key_encode, &it->key);
    } else if (strcmp(kind, "priv") == 0) {
        tell_key(&it->priv.key);
        TELL_WRITTEN(pkcs1_private_key_encode, &it->priv.key, others, it->priv.key.other_primes);
    } else if (strcmp(kind, "info") == 0) {
        tell_key(&it->priv.key), part(it->priv.info.private_key);
        octet(it->priv.info.has_attributes);
        if (it->priv.info.has_attributes)
            part(it->priv.info.attributes);
        TELL_WRITTEN(pkcs1_private_key_info_encode, &it->priv.info);
    } else if (strncmp(kind, "pss", 3) == 0) {
        tell_algorithm(&it->pss.hash), tell_mask_gen(&it->pss.mask_gen);
        octet(it->pss.salt_len), octet(it->pss.trailer_field);
        TELL_WRITTEN(pkcs1_pss_params_encode, &it->pss);
        TELL_WRITTEN(pkcs1_pss_algorithm_encode, &it->pss);
    } else {
        tell_algorithm(&it->oaep.hash), tell_mask_gen(&it->oaep.mask_gen), tell_algorithm(&it->oaep.p_source);
        if (pkcs1_oaep_label(&it->oaep, &label))
            part(label);
        TELL_WRITTEN(pkcs1_oaep_params_encode, &it->oaep);
        TELL_WRITTEN(pkcs1_oaep_algorithm_encode, &it->oaep);
    }
}

static uint32_t decode(const char *kind, const uint8_t *der, size_t len, union value *to) {
    if (strcmp(kind, "priv") == 0)
        return pkcs1_private_key_decode(der, len, &to->priv.key, others, OTHERS);
    if (strcmp(kind, "info") == 0)
        return pkcs1_private_key_info_decode(der, len, &to->priv.info, &to->priv.key, others, OTHERS);
    return read_row(kind, der, len, to);
}

/* Writes what the reader of the kind with this number answers, and returns how many octets that takes. */
size_t built_answer(unsigned reader, const uint8_t *der, size_t len, uint8_t *answer);
size_t built_answer(unsigned reader, const uint8_t *der, size_t len, uint8_t *answer) {
    union value it;
    uint32_t status = decode(kinds[reader], der, len, &it);
    told = answer;
    octet(status);
    if (status == PKCS1_OK)
        tell(kinds[reader], &it);
    return (size_t)(told - answer);
}
