/* mbed TLS: mbedtls_pk_parse_public_key and mbedtls_pk_parse_key, which also take SubjectPublicKeyInfo, PKCS #8 and
 * PEM, and mbedtls_x509_get_rsassa_pss_params. */
#include "peers.h"
#include <mbedtls/oid.h>
#include <mbedtls/pk.h>
#include <mbedtls/x509.h>
#include <string.h>

enum { ROOM = 8192 };

/* The library writes to the end of the room. */
static int moved(int size, uint8_t *to, size_t *len) {
    if (size <= 0)
        return NOT_WRITTEN;
    memmove(to, to + ROOM - size, (size_t)size);
    *len = (size_t)size;
    return ACCEPTED;
}

#define CALL(name, parsed, written)                                                                                   \
    static int name(const uint8_t *der, size_t der_len, uint8_t *to, size_t room, size_t *len) {                      \
        (void)room;                                                                                                   \
        mbedtls_pk_context key;                                                                                       \
        mbedtls_pk_init(&key);                                                                                        \
        int answer = parsed == 0;                                                                                     \
        if (answer && to != NULL)                                                                                     \
            answer = moved(written, to, len);                                                                         \
        mbedtls_pk_free(&key);                                                                                        \
        return answer;                                                                                                \
    }
CALL(public_key, mbedtls_pk_parse_public_key(&key, der, der_len),
     mbedtls_pk_write_pubkey(&(unsigned char *){to + ROOM}, to, &key))
CALL(private_key, mbedtls_pk_parse_key(&key, der, der_len, NULL, 0), mbedtls_pk_write_key_der(&key, to, ROOM))

static int are_pss(const mbedtls_x509_buf *parameters) {
    mbedtls_md_type_t hash, mask_hash;
    int salt;
    return mbedtls_x509_get_rsassa_pss_params(parameters, &hash, &mask_hash, &salt) == 0;
}

/* Tag, length and contents apart, as mbedtls_x509_get_alg gives them. */
static int pss(const uint8_t *der, size_t der_len, uint8_t *to, size_t room, size_t *len) {
    (void)to, (void)room, (void)len;
    unsigned char *at = (unsigned char *)der;
    mbedtls_x509_buf parameters;
    if (der_len == 0)
        return REJECTED;
    parameters.tag = *at;
    int sequence = MBEDTLS_ASN1_CONSTRUCTED | MBEDTLS_ASN1_SEQUENCE;
    const uint8_t *end = der + der_len;
    if (mbedtls_asn1_get_tag(&at, end, &parameters.len, sequence) != 0 || at + parameters.len != end)
        return REJECTED;
    parameters.p = at;
    return are_pss(&parameters);
}

static int pss_algorithm(const uint8_t *der, size_t der_len, uint8_t *to, size_t room, size_t *len) {
    (void)to, (void)room, (void)len;
    unsigned char *at = (unsigned char *)der;
    mbedtls_x509_buf oid, parameters;
    if (mbedtls_x509_get_alg(&at, der + der_len, &oid, &parameters) != 0 || at != der + der_len)
        return REJECTED;
    return MBEDTLS_OID_CMP(MBEDTLS_OID_RSASSA_PSS, &oid) == 0 && are_pss(&parameters);
}

/* By type, in the order of peers.h: the call, and whether it writes too. */
const struct library mbedtls = {"mbedTLS",
                                {public_key, private_key, private_key, pss, pss_algorithm, NULL, NULL, private_key},
                                {1, 1, 1, 0, 0, 0, 0, 0}};
