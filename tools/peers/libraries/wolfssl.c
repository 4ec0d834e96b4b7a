/* wolfSSL: wc_RsaPublicKeyDecode and wc_RsaPrivateKeyDecode, which take SubjectPublicKeyInfo and PKCS #8 too. */
#include "peers.h"
#include <wolfssl/options.h>
#include <wolfssl/wolfcrypt/asn.h>
#include <wolfssl/wolfcrypt/asn_public.h>
#include <wolfssl/wolfcrypt/rsa.h>

static int write_public_key(RsaKey *key, uint8_t *to, size_t room) {
    return wc_RsaKeyToPublicDer_ex(key, to, (word32)room, 0);
}

static int write_private_key(RsaKey *key, uint8_t *to, size_t room) {
    return wc_RsaKeyToDer(key, to, (word32)room);
}

static int write_pkcs8(RsaKey *key, uint8_t *to, size_t room) {
    static uint8_t inner[16384];
    int size = wc_RsaKeyToDer(key, inner, sizeof inner);
    word32 all = (word32)room;
    return size <= 0 ? size : wc_CreatePKCS8Key(to, &all, inner, (word32)size, RSAk, NULL, 0);
}

typedef int decode_call(const byte *, word32 *, RsaKey *, word32);
typedef int write_call(RsaKey *, uint8_t *, size_t);

/* In a container it stops behind the key in it, so that the end can't be compared. */
static int either(decode_call *decode, write_call *encode, int is_container, const uint8_t *der, size_t der_len,
                  uint8_t *to, size_t room, size_t *len) {
    RsaKey key;
    word32 at = 0;
    if (wc_InitRsaKey(&key, NULL) != 0)
        return REJECTED;
    int answer = decode(der, &at, &key, (word32)der_len) == 0 && (at == der_len || (is_container && at < der_len));
    if (answer && to != NULL) {
        int size = encode(&key, to, room);
        if (size <= 0)
            answer = NOT_WRITTEN;
        else
            *len = (size_t)size;
    }
    wc_FreeRsaKey(&key);
    return answer;
}

static int public_key(const uint8_t *der, size_t der_len, uint8_t *to, size_t room, size_t *len) {
    return either(wc_RsaPublicKeyDecode, write_public_key, 0, der, der_len, to, room, len);
}

static int private_key(const uint8_t *der, size_t der_len, uint8_t *to, size_t room, size_t *len) {
    return either(wc_RsaPrivateKeyDecode, write_private_key, 0, der, der_len, to, room, len);
}

static int pkcs8(const uint8_t *der, size_t der_len, uint8_t *to, size_t room, size_t *len) {
    return either(wc_RsaPrivateKeyDecode, write_pkcs8, 1, der, der_len, to, room, len);
}

/* By type, in the order of peers.h: the call, and whether it writes too. */
const struct library wolfssl = {"wolfSSL",
                                {public_key, private_key, private_key, NULL, NULL, NULL, NULL, pkcs8},
                                {1, 1, 1, 0, 0, 0, 0, 1}};
