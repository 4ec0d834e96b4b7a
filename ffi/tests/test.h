/* What the tests in C share. */
#ifndef TEST_H
#define TEST_H

#include "pkcs1.h"
#include <stdio.h>
#include <stdlib.h>

#define CHECK(c) do { if (!(c)) { fprintf(stderr, "%s:%d: %s\n", __FILE__, __LINE__, #c); exit(1); } } while (0)

/* So many octets of 0xa5, for the caller to free. */
void *filled(size_t n);

/* Tries the worked rows in this file. */
void try_rows(const char *path);

/* Tries inputs, labels, identifiers and rooms whose lengths don't fit into few bits. */
void try_large(void);

/* What a value is read as, by the words of worked rows. */
enum { KINDS = 11, LISTED = 4 };
extern const char *const kinds[KINDS];
union value {
    struct pkcs1_public_key key;
    struct {
        struct pkcs1_private_key key;
        struct pkcs1_private_key_info info;
        struct pkcs1_bytes listed; /* where all other primes are encoded, for ffi/tests/fuzz/reference.h */
        struct pkcs1_other_prime others[LISTED];
    } priv;
    struct pkcs1_pss_params pss;
    struct pkcs1_oaep_params oaep;
};
/* What is read into one struct: its word, its name in ffi/proof/kinds.h, the call, the struct, and where a value has it.
 * Then what writes one, by how words begin. */
#define DECODERS(CALL)                                                                                                \
    CALL("pub", PUBLIC_KEY, public_key_decode, public_key, key)                                                       \
    CALL("pss", PSS_PARAMS, pss_params_decode, pss_params, pss)                                                       \
    CALL("pss-strict", PSS_PARAMS_STRICT, pss_params_decode_strict, pss_params, pss)                                  \
    CALL("pss-algorithm", PSS_ALGORITHM, pss_algorithm_decode, pss_params, pss)                                       \
    CALL("pss-algorithm-strict", PSS_ALGORITHM_STRICT, pss_algorithm_decode_strict, pss_params, pss)                  \
    CALL("oaep", OAEP_PARAMS, oaep_params_decode, oaep_params, oaep)                                                  \
    CALL("oaep-strict", OAEP_PARAMS_STRICT, oaep_params_decode_strict, oaep_params, oaep)                             \
    CALL("oaep-algorithm", OAEP_ALGORITHM, oaep_algorithm_decode, oaep_params, oaep)                                  \
    CALL("oaep-algorithm-strict", OAEP_ALGORITHM_STRICT, oaep_algorithm_decode_strict, oaep_params, oaep)
#define ENCODERS(CALL)                                                                                                \
    CALL("pub", public_key_encode, public_key, key)                                                                   \
    CALL("info", private_key_info_encode, private_key_info, priv.info)                                                \
    CALL("pss-algorithm", pss_algorithm_encode, pss_params, pss)                                                      \
    CALL("pss", pss_params_encode, pss_params, pss)                                                                   \
    CALL("oaep-algorithm", oaep_algorithm_encode, oaep_params, oaep)                                                  \
    CALL("oaep", oaep_params_encode, oaep_params, oaep)
/* The next field of octets in a value of this kind, from number `*i` on, or null. */
struct pkcs1_bytes *next_field(const char *kind, const union value *value, size_t *i);
uint32_t read_row(const char *kind, const uint8_t *der, size_t len, union value *v);
uint32_t write_row(const char *kind, const union value *v, uint8_t *out, size_t room, size_t *len);

#endif
