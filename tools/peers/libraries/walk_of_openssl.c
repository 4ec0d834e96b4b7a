/* A walk over the tags and lengths of a key by OpenSSL's ASN1_get_object, which looks at no sign, shortest form or version. It
 * tells how fast a key can be left unread. */
#include "peers.h"
#include <openssl/asn1.h>

enum { MOST = 9 }; /* the numbers of a private key, with its version */
/* Where they are, and how long. */
static struct input numbers[MOST];

static int walk(const uint8_t *der, size_t der_len, size_t count) {
    const uint8_t *at = der, *end = der + der_len;
    long len;
    int tag, class;
    if (ASN1_get_object(&at, &len, &tag, &class, (long)der_len) & 0x80 || tag != V_ASN1_SEQUENCE || at + len != end)
        return REJECTED;
    for (size_t i = 0; i < count; i++) {
        if (ASN1_get_object(&at, &len, &tag, &class, end - at) & 0x80 || tag != V_ASN1_INTEGER)
            return REJECTED;
        numbers[i] = (struct input){at, (size_t)len};
        at += len;
    }
    return at == end ? ACCEPTED : REJECTED;
}

#define WALK(name, count)                                                                                             \
    static int name(const uint8_t *der, size_t der_len, uint8_t *to, size_t room, size_t *len) {                      \
        (void)to, (void)room, (void)len;                                                                              \
        return walk(der, der_len, count);                                                                             \
    }
WALK(public_key, 2)
WALK(private_key, MOST)

const struct library walk_of_openssl = {"OpenSSL, a walk", {public_key, private_key}, {0}, {{0}}};
