/* This repository's library, and then the numbers in an RSA structure of OpenSSL: the work of d2i_RSAPublicKey and
 * d2i_RSAPrivateKey. */
#define OPENSSL_SUPPRESS_DEPRECATED
#include "peers.h"
#include "pkcs1.h"
#include <openssl/rsa.h>

enum { OTHERS = 16 };

static BIGNUM *big(const struct pkcs1_bytes *number) {
    return BN_bin2bn(number->data, (int)number->len, NULL);
}

static int public_key(const uint8_t *der, size_t der_len, uint8_t *to, size_t room, size_t *len) {
    (void)to, (void)room, (void)len;
    struct pkcs1_public_key key;
    if (pkcs1_public_key_decode(der, der_len, &key) != PKCS1_OK)
        return REJECTED;
    RSA *rsa = RSA_new();
    int answer = RSA_set0_key(rsa, big(&key.modulus), big(&key.public_exponent), NULL);
    RSA_free(rsa);
    return answer;
}

static int set_others(RSA *rsa, const struct pkcs1_other_prime *others, size_t count) {
    BIGNUM *primes[OTHERS], *exponents[OTHERS], *coefficients[OTHERS];
    for (size_t i = 0; i < count; i++) {
        primes[i] = big(&others[i].prime);
        exponents[i] = big(&others[i].exponent);
        coefficients[i] = big(&others[i].coefficient);
    }
    return count == 0 || RSA_set0_multi_prime_params(rsa, primes, exponents, coefficients, (int)count);
}

static int private_key(const uint8_t *der, size_t der_len, uint8_t *to, size_t room, size_t *len) {
    (void)to, (void)room, (void)len;
    struct pkcs1_private_key key;
    struct pkcs1_other_prime others[OTHERS];
    if (pkcs1_private_key_decode(der, der_len, &key, others, OTHERS) != PKCS1_OK || key.other_primes > OTHERS)
        return REJECTED;
    RSA *rsa = RSA_new();
    int answer = RSA_set0_key(rsa, big(&key.modulus), big(&key.public_exponent), big(&key.private_exponent)) &&
                 RSA_set0_factors(rsa, big(&key.prime1), big(&key.prime2)) &&
                 RSA_set0_crt_params(rsa, big(&key.exponent1), big(&key.exponent2), big(&key.coefficient)) &&
                 set_others(rsa, others, key.other_primes);
    RSA_free(rsa);
    return answer;
}

/* By type, in the order of peers.h: the call, and whether it writes too. */
const struct library libpkcs1_bignums = {"libpkcs1, BIGNUMs", {public_key, private_key, private_key}, {0}};
