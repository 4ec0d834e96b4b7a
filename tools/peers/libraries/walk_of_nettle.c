/* A walk over the tags and lengths of a key by nettle's iterator, which looks at no sign, shortest form or version. It
 * tells how fast a key can be left unread. */
#include "peers.h"
#include <nettle/asn1.h>

enum { MOST = 9 }; /* the numbers of a private key, with its version */
/* Where they are, and how long. */
static struct input numbers[MOST];

static int walk(const uint8_t *der, size_t der_len, size_t count) {
    struct asn1_der_iterator in, part;
    if (asn1_der_iterator_first(&in, der_len, der) != ASN1_ITERATOR_CONSTRUCTED || in.type != ASN1_SEQUENCE ||
        asn1_der_decode_constructed(&in, &part) != ASN1_ITERATOR_PRIMITIVE)
        return REJECTED;
    for (size_t i = 0; i < count; i++) {
        if (part.type != ASN1_INTEGER)
            return REJECTED;
        numbers[i] = (struct input){part.data, part.length};
        if (asn1_der_iterator_next(&part) != (i + 1 < count ? ASN1_ITERATOR_PRIMITIVE : ASN1_ITERATOR_END))
            return REJECTED;
    }
    return ACCEPTED;
}

#define WALK(name, count)                                                                                             \
    static int name(const uint8_t *der, size_t der_len, uint8_t *to, size_t room, size_t *len) {                      \
        (void)to, (void)room, (void)len;                                                                              \
        return walk(der, der_len, count);                                                                             \
    }
WALK(public_key, 2)
WALK(private_key, MOST)

const struct library walk_of_nettle = {"nettle, a walk", {public_key, private_key}, {0}, {{0}}};
