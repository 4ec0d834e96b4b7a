#include "elements.h"
#include <string.h>

static uint32_t public_key(struct octets from, struct pkcs1_public_key *key) {
    struct octets contents;
    TRY(tagged(&from, 0x30, &contents));
    TRY(number(&contents, &key->modulus));
    TRY(number(&contents, &key->public_exponent));
    TRY(at_end(contents));
    return at_end(from);
}

static uint32_t other_prime(struct octets *from, struct pkcs1_other_prime *read) {
    struct octets contents;
    TRY(tagged(from, 0x30, &contents));
    TRY(number(&contents, &read->prime));
    TRY(number(&contents, &read->exponent));
    TRY(number(&contents, &read->coefficient));
    return at_end(contents);
}

bool reads_primes(const uint8_t *list, size_t len, struct pkcs1_other_prime *primes, size_t room, size_t *count) {
    struct octets left = {list, len};
    for (*count = 0; left.left > 0; ++*count) {
        struct pkcs1_other_prime read;
        if (other_prime(&left, &read) != PKCS1_OK)
            return false;
        if (*count < room)
            primes[*count] = read;
    }
    return true;
}

/* RFC 8017 A.1.2 */
static uint32_t private_key(struct octets from, union value *v) {
    struct pkcs1_private_key *key = &v->priv.key;
    struct pkcs1_bytes *numbers[] = {&key->modulus, &key->public_exponent, &key->private_exponent, &key->prime1,
                                     &key->prime2, &key->exponent1, &key->exponent2, &key->coefficient};
    struct octets contents, list = {NULL, 0};
    uint8_t version;
    TRY(tagged(&from, 0x30, &contents));
    TRY(octet(&contents, &version));
    if (version > 1)
        return PKCS1_VALUE;
    for (size_t i = 0; i < 8; i++)
        TRY(number(&contents, numbers[i]));
    bool listed = begins_with(contents, 0x30);
    if (listed)
        TRY(tagged(&contents, 0x30, &list));
    v->priv.listed = all(list);
    for (key->other_primes = 0; list.left > 0; key->other_primes++) {
        struct pkcs1_other_prime other;
        TRY(other_prime(&list, &other));
        if (key->other_primes < LISTED)
            v->priv.others[key->other_primes] = other;
    }
    if (version != listed || (listed && key->other_primes == 0))
        return PKCS1_VALUE;
    TRY(at_end(contents));
    return at_end(from);
}

/* The contents of an AlgorithmIdentifier (RFC 5280 4.1.1.2). */
static uint32_t algorithm_in(struct octets contents, struct pkcs1_algorithm *read) {
    struct octets parameters = {NULL, 0};
    memset(read, 0, sizeof *read);
    TRY(identifier(&contents, &read->oid));
    read->has_parameters = contents.left > 0;
    if (read->has_parameters)
        TRY(any(&contents, &read->tag, &parameters));
    read->parameters = all(parameters);
    return at_end(contents);
}

static uint32_t algorithm(struct octets *from, struct pkcs1_algorithm *read) {
    struct octets contents;
    TRY(tagged(from, 0x30, &contents));
    return algorithm_in(contents, read);
}

/* RFC 5208 5, of an RSA key */
static uint32_t container(struct octets from, union value *v) {
    struct pkcs1_private_key_info *info = &v->priv.info;
    struct pkcs1_algorithm of;
    struct octets contents, key, attributes = {NULL, 0};
    uint8_t version;
    TRY(tagged(&from, 0x30, &contents));
    TRY(octet(&contents, &version));
    if (version != 0)
        return PKCS1_VALUE;
    TRY(algorithm(&contents, &of));
    TRY(tagged(&contents, 4, &key));
    info->private_key = all(key);
    info->has_attributes = begins_with(contents, 0xa0);
    if (info->has_attributes)
        TRY(tagged(&contents, 0xa0, &attributes));
    info->attributes = all(attributes);
    TRY(at_end(contents));
    TRY(at_end(from));
    if (of.oid.len != 9 || memcmp(of.oid.data, "\x2a\x86\x48\x86\xf7\x0d\1\1\1", 9) != 0)
        return PKCS1_OID_UNKNOWN;
    if (!of.has_parameters)
        return PKCS1_PARAMETERS_MISSING;
    if (of.tag != 5 || of.parameters.len > 0)
        return PKCS1_VALUE;
    return private_key(key, v);
}

static uint32_t mask_gen(struct octets *from, struct pkcs1_mask_gen *read) {
    struct octets contents;
    memset(read, 0, sizeof *read);
    TRY(tagged(from, 0x30, &contents));
    TRY(identifier(&contents, &read->oid));
    read->has_hash = contents.left > 0;
    if (read->has_hash)
        TRY(algorithm(&contents, &read->hash));
    return at_end(contents);
}

/* Defaults are told by their octets, wherever they stand. */
static const struct pkcs1_bytes anywhere = {NULL, 0};

/* Opens the field with this tag, if it comes next. */
static uint32_t field(struct octets *from, uint8_t tag, struct octets *contents) {
    contents->at = NULL;
    return begins_with(*from, tag) ? tagged(from, tag, contents) : (uint32_t)PKCS1_OK;
}

/* The two fields that both parameters begin with. `written` is set if one is written that equals its default. */
static uint32_t hash_and_mask(struct octets *from, struct pkcs1_algorithm *hash, struct pkcs1_mask_gen *mask,
                              bool *written) {
    const struct pkcs1_algorithm sha1 = *hash;
    const struct pkcs1_mask_gen mgf1 = *mask;
    struct octets contents;
    TRY(field(from, 0xa0, &contents));
    if (contents.at != NULL) {
        TRY(algorithm(&contents, hash));
        TRY(at_end(contents));
        *written |= same_algorithm(hash, &sha1, anywhere);
    }
    TRY(field(from, 0xa1, &contents));
    if (contents.at != NULL) {
        TRY(mask_gen(&contents, mask));
        TRY(at_end(contents));
        *written |= same_mask_gen(mask, &mgf1, anywhere);
    }
    return PKCS1_OK;
}

/* RFC 8017 A.2.3: the fields, which fill `contents`. */
static uint32_t pss(struct octets contents, struct pkcs1_pss_params *params, bool *written) {
    struct octets inner;
    pkcs1_pss_params_init(params, &pkcs1_oid_sha1, 20);
    TRY(hash_and_mask(&contents, &params->hash, &params->mask_gen, written));
    TRY(field(&contents, 0xa2, &inner));
    if (inner.at != NULL) {
        TRY(octet(&inner, &params->salt_len));
        TRY(at_end(inner));
        *written |= params->salt_len == 20;
    }
    TRY(field(&contents, 0xa3, &inner));
    if (inner.at != NULL) {
        TRY(octet(&inner, &params->trailer_field));
        if (params->trailer_field != 1)
            return PKCS1_VALUE;
        TRY(at_end(inner));
        *written = true;
    }
    return at_end(contents);
}

/* RFC 8017 A.2.1 */
static uint32_t oaep(struct octets contents, struct pkcs1_oaep_params *params, bool *written) {
    struct octets inner;
    pkcs1_oaep_params_init(params, &pkcs1_oid_sha1, NULL, 0);
    const struct pkcs1_algorithm no_label = params->p_source;
    TRY(hash_and_mask(&contents, &params->hash, &params->mask_gen, written));
    TRY(field(&contents, 0xa2, &inner));
    if (inner.at != NULL) {
        TRY(algorithm(&inner, &params->p_source));
        TRY(at_end(inner));
        *written |= same_algorithm(&params->p_source, &no_label, anywhere);
    }
    return at_end(contents);
}

/* Parameters, or an AlgorithmIdentifier with them. */
static uint32_t parameters(const char *kind, struct octets from, union value *v) {
    bool is_pss = strncmp(kind, "pss", 3) == 0, written = false;
    struct octets contents;
    TRY(tagged(&from, 0x30, &contents));
    if (strstr(kind, "-algorithm") != NULL) {
        struct pkcs1_algorithm of;
        TRY(algorithm_in(contents, &of));
        TRY(at_end(from));
        if (!same(of.oid, is_pss ? pkcs1_oid_rsassa_pss : pkcs1_oid_rsaes_oaep, anywhere))
            return PKCS1_OID_UNKNOWN;
        if (!of.has_parameters)
            return PKCS1_PARAMETERS_MISSING;
        if (of.tag != 0x30)
            return PKCS1_TAG_UNEXPECTED;
        contents.at = of.parameters.data;
        contents.left = of.parameters.len;
    }
    TRY(is_pss ? pss(contents, &v->pss, &written) : oaep(contents, &v->oaep, &written));
    TRY(at_end(from));
    return written && strstr(kind, "-strict") != NULL ? PKCS1_NONCANONICAL : PKCS1_OK;
}

uint32_t reference(const char *kind, const uint8_t *der, size_t len, union value *v) {
    struct octets from = {der, len};
    if (strcmp(kind, "pub") == 0)
        return public_key(from, &v->key);
    if (strcmp(kind, "priv") == 0)
        return private_key(from, v);
    return strcmp(kind, "info") == 0 ? container(from, v) : parameters(kind, from, v);
}
