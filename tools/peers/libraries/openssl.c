/* OpenSSL: d2i_.. and i2d_..; the caller compares where reading stopped with the end. */
#define OPENSSL_SUPPRESS_DEPRECATED
#include "peers.h"
#include <openssl/asn1t.h>
#include <openssl/err.h>
#include <openssl/rsa.h>
#include <openssl/x509.h>

static int answered(int is_accepted) {
    if (!is_accepted)
        ERR_clear_error();
    return is_accepted;
}

/* PUT(encode, value): writes the value, and answers. It asks for the length first, to compare it with `room`. */
#define PUT(encode, value)                                                                                            \
    ((*len = (size_t)encode(value, NULL)) - 1 < room ? (encode(value, &to), ACCEPTED) : NOT_WRITTEN)
#define CALL(name, type, decode, encode, release)                                                                     \
    static int name(const uint8_t *der, size_t der_len, uint8_t *to, size_t room, size_t *len) {                      \
        const uint8_t *next = der;                                                                                    \
        type *value = decode(NULL, &next, (long)der_len);                                                             \
        int answer = value != NULL && next == der + der_len;                                                          \
        if (answer && to != NULL)                                                                                     \
            answer = PUT(encode, value);                                                                              \
        release(value);                                                                                               \
        return answered(answer);                                                                                      \
    }
CALL(public_key, RSA, d2i_RSAPublicKey, i2d_RSAPublicKey, RSA_free)
CALL(private_key, RSA, d2i_RSAPrivateKey, i2d_RSAPrivateKey, RSA_free)
CALL(pss, RSA_PSS_PARAMS, d2i_RSA_PSS_PARAMS, i2d_RSA_PSS_PARAMS, RSA_PSS_PARAMS_free)
CALL(oaep, RSA_OAEP_PARAMS, d2i_RSA_OAEP_PARAMS, i2d_RSA_OAEP_PARAMS, RSA_OAEP_PARAMS_free)

/* An X509_ALGOR and the parameters in it. Both are written anew. */
static int algorithm(int nid, const ASN1_ITEM *item, const uint8_t *der, size_t der_len, uint8_t *to, size_t room,
                     size_t *len) {
    const uint8_t *next = der;
    X509_ALGOR *whole = d2i_X509_ALGOR(NULL, &next, (long)der_len);
    int answer = whole != NULL && next == der + der_len && OBJ_obj2nid(whole->algorithm) == nid;
    void *value = answer ? ASN1_TYPE_unpack_sequence(item, whole->parameter) : NULL;
    answer = value != NULL;
    if (answer && to != NULL) {
        ASN1_STRING *parameters = NULL;
        if (ASN1_item_pack(value, item, &parameters) == NULL)
            answer = NOT_WRITTEN;
        else {
            X509_ALGOR_set0(whole, OBJ_nid2obj(nid), V_ASN1_SEQUENCE, parameters);
            answer = PUT(i2d_X509_ALGOR, whole);
        }
    }
    ASN1_item_free(value, item);
    X509_ALGOR_free(whole);
    return answered(answer);
}

static int pss_algorithm(const uint8_t *der, size_t der_len, uint8_t *to, size_t room, size_t *len) {
    return algorithm(NID_rsassaPss, ASN1_ITEM_rptr(RSA_PSS_PARAMS), der, der_len, to, room, len);
}

static int oaep_algorithm(const uint8_t *der, size_t der_len, uint8_t *to, size_t room, size_t *len) {
    return algorithm(NID_rsaesOaep, ASN1_ITEM_rptr(RSA_OAEP_PARAMS), der, der_len, to, room, len);
}

static int write_pkcs8(PKCS8_PRIV_KEY_INFO *info, RSA *rsa, uint8_t *to, size_t room, size_t *len) {
    uint8_t *key = NULL;
    int size = i2d_RSAPrivateKey(rsa, &key);
    if (size <= 0)
        return NOT_WRITTEN;
    PKCS8_pkey_set0(info, OBJ_nid2obj(NID_rsaEncryption), -1, V_ASN1_NULL, NULL, key, size);
    return PUT(i2d_PKCS8_PRIV_KEY_INFO, info);
}

static int pkcs8(const uint8_t *der, size_t der_len, uint8_t *to, size_t room, size_t *len) {
    const uint8_t *next = der, *key = NULL;
    int size = 0;
    const ASN1_OBJECT *oid = NULL;
    PKCS8_PRIV_KEY_INFO *info = d2i_PKCS8_PRIV_KEY_INFO(NULL, &next, (long)der_len);
    RSA *rsa = NULL;
    int answer = info != NULL && next == der + der_len && PKCS8_pkey_get0(&oid, &key, &size, NULL, info) == 1 &&
                 OBJ_obj2nid(oid) == NID_rsaEncryption;
    if (answer) {
        next = key;
        rsa = d2i_RSAPrivateKey(NULL, &next, size);
        answer = rsa != NULL && next == key + size;
    }
    if (answer && to != NULL)
        answer = write_pkcs8(info, rsa, to, room, len);
    RSA_free(rsa);
    PKCS8_PRIV_KEY_INFO_free(info);
    return answered(answer);
}

/* By type, in the order of peers.h: the call, and whether it writes too. */
const struct library openssl = {"OpenSSL",
                                {public_key, private_key, private_key, pss, pss_algorithm, oaep,
                                 oaep_algorithm, pkcs8},
                                {1, 1, 1, 1, 1, 1, 1, 1}};
