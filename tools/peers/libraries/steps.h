/* What libpkcs1.c and line.c share: from the calls of a type, those of peers.h. */
#ifndef STEPS_H
#define STEPS_H
#include "peers.h"
#include "pkcs1.h"

enum { OTHERS = 32 };
/* What was read, by one of the calls. */
struct values {
    struct pkcs1_public_key public_key;
    struct pkcs1_private_key private_key;
    struct pkcs1_other_prime others[OTHERS];
    struct pkcs1_private_key_info info;
    struct pkcs1_pss_params pss;
    struct pkcs1_oaep_params oaep;
};

/* Where `read` and `keep` leave what they read, as `to`; and what is written, as `from`, with the number of others. */
#define PUBLIC_KEY_TO &to->public_key
#define PUBLIC_KEY_FROM &from->public_key
#define PRIVATE_KEY_TO &to->private_key, to->others, OTHERS
#define PRIVATE_KEY_FROM &from->private_key, from->others, from->private_key.other_primes
#define INFO_TO &to->info, &to->private_key, to->others, OTHERS
#define INFO_FROM &from->info
#define PSS_TO &to->pss
#define PSS_FROM &from->pss
#define OAEP_TO &to->oaep
#define OAEP_FROM &from->oaep

/* The steps of a type without a strict reading, by the calls of this prefix: NAME_read and so on, and NAME itself. */
#define STEPS(name, prefix, TO, FROM)                                                                                 \
    static uint32_t name##_read(const uint8_t *der, size_t len) {                                                     \
        static struct values read, *const to = &read;                                                                 \
        return prefix##_decode(der, len, TO);                                                                         \
    }                                                                                                                 \
    static void *name##_keep(const uint8_t *der, size_t len) {                                                        \
        static struct values kept, *const to = &kept;                                                                 \
        return prefix##_decode(der, len, TO) == 0 ? to : NULL;                                                        \
    }                                                                                                                 \
    static uint32_t name##_write(const void *kept, uint8_t *out, size_t room, size_t *len) {                          \
        const struct values *from = kept;                                                                             \
        return prefix##_encode(FROM, out, room, len);                                                                 \
    }                                                                                                                 \
    static size_t name##_length(const void *kept) {                                                                   \
        const struct values *from = kept;                                                                             \
        size_t len = 0;                                                                                               \
        return prefix##_encode(FROM, NULL, 0, &len) == 0 ? 0 : len;                                                   \
    }                                                                                                                 \
    static int name(const uint8_t *der, size_t der_len, uint8_t *out, size_t room, size_t *len) {                     \
        struct values it, *const to = &it, *const from = &it;                                                         \
        if (prefix##_decode(der, der_len, TO) != 0)                                                                   \
            return REJECTED;                                                                                          \
        return out == NULL || prefix##_encode(FROM, out, room, len) == 0 ? ACCEPTED : NOT_WRITTEN;                    \
    }
#define STEPS_OF(name) .read = name##_read, .keep = name##_keep, .write = name##_write, .length = name##_length
#endif
