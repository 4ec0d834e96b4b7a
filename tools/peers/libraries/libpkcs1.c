/* This repository's library, by pkcs1.h. Strict: parameters by the calls that take the shortest encoding only. */
#include "steps.h"

#define PARAMETERS(name, prefix, TO, FROM)                                                                            \
    STEPS(name, prefix, TO, FROM)                                                                                     \
    static uint32_t name##_read_strictly(const uint8_t *der, size_t len) {                                            \
        static struct values read, *const to = &read;                                                                 \
        return prefix##_decode_strict(der, len, TO);                                                                  \
    }                                                                                                                 \
    static int name##_strict(const uint8_t *der, size_t der_len, uint8_t *out, size_t room, size_t *len) {            \
        struct values it, *const to = &it, *const from = &it;                                                         \
        if (prefix##_decode_strict(der, der_len, TO) != PKCS1_OK)                                                     \
            return REJECTED;                                                                                          \
        return out == NULL || prefix##_encode(FROM, out, room, len) == PKCS1_OK ? ACCEPTED : NOT_WRITTEN;             \
    }
STEPS(public_key, pkcs1_public_key, PUBLIC_KEY_TO, PUBLIC_KEY_FROM)
STEPS(private_key, pkcs1_private_key, PRIVATE_KEY_TO, PRIVATE_KEY_FROM)
STEPS(container, pkcs1_private_key_info, INFO_TO, INFO_FROM)
PARAMETERS(pss, pkcs1_pss_params, PSS_TO, PSS_FROM)
PARAMETERS(pss_algorithm, pkcs1_pss_algorithm, PSS_TO, PSS_FROM)
PARAMETERS(oaep, pkcs1_oaep_params, OAEP_TO, OAEP_FROM)
PARAMETERS(oaep_algorithm, pkcs1_oaep_algorithm, OAEP_TO, OAEP_FROM)

#define ASK(name, expression)                                                                                         \
    static uint64_t name(const void *kept, const struct pkcs1_bytes *oid) {                                           \
        const struct values *of = kept;                                                                               \
        (void)oid;                                                                                                    \
        return expression;                                                                                            \
    }
ASK(bit_len, pkcs1_bit_len(of->public_key.modulus))
ASK(pss_is, pkcs1_pss_is(&of->pss, oid))
ASK(pss_hash_is, pkcs1_algorithm_is(&of->pss.hash, oid))
ASK(oaep_is, pkcs1_oaep_is(&of->oaep, oid))
static uint64_t label_len(const void *kept, const struct pkcs1_bytes *oid) {
    struct pkcs1_bytes label;
    (void)oid;
    return pkcs1_oaep_label(&((const struct values *)kept)->oaep, &label) ? label.len : UINT64_MAX;
}

#define WRITES {1, 1, 1, 1, 1, 1, 1, 1}
#define WITH_STRICT(name) STEPS_OF(name), .strict = name##_read_strictly
/* By type, in the order of peers.h: the call, and whether it writes too; and the steps. */
const struct library libpkcs1 = {
    "libpkcs1",
    {public_key, private_key, private_key, pss, pss_algorithm, oaep, oaep_algorithm, container},
    WRITES,
    {{STEPS_OF(public_key), .ask = {bit_len}},
     {STEPS_OF(private_key)},
     {STEPS_OF(private_key)},
     {WITH_STRICT(pss), .ask = {pss_is, pss_hash_is}},
     {WITH_STRICT(pss_algorithm)},
     {WITH_STRICT(oaep), .ask = {oaep_is, label_len}},
     {WITH_STRICT(oaep_algorithm)},
     {STEPS_OF(container)}}};
const struct library libpkcs1_strict = {
    "libpkcs1 strict",
    {public_key, private_key, private_key, pss_strict, pss_algorithm_strict, oaep_strict, oaep_algorithm_strict,
     container},
    WRITES};
