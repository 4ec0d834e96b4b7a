/* The proved calls, which pkcs1.c alone calls. They do what those of pkcs1.h do, and require more. This header isn't
 * installed.
 *
 * Structs: each must hold valid values, even one that a decoder only fills. In it each `bool` must be 0 or 1, and no
 *   `pkcs1_bytes` may be null.
 * Fields after a false `has_..`: they must be valid too. An encoder doesn't read them. A decoder sets them to empty.
 * Null: `der`, `listed`, `others`, `out`, `number` and `oid` may not be null, not even if their length is 0. */
#ifndef PKCS1_C_H
#define PKCS1_C_H

#include "pkcs1.h"

/* The bit length of a number, in which zero octets in front don't count. */
uint64_t pkcs1_c_bit_len(const uint8_t *number, size_t number_len);

uint32_t pkcs1_c_public_key_decode(const uint8_t *der, size_t der_len, struct pkcs1_public_key *key);
uint32_t pkcs1_c_public_key_encode(const struct pkcs1_public_key *key, uint8_t *out, size_t room, size_t *len);

/* Fills `key`, and sets `listed` to the octets of its other primes, one encoding behind the other, empty if there are
 * none. */
uint32_t pkcs1_c_private_key_decode(const uint8_t *der, size_t der_len, struct pkcs1_private_key *key,
                                    struct pkcs1_bytes *listed);
uint32_t pkcs1_c_private_key_info_decode(const uint8_t *der, size_t der_len, struct pkcs1_private_key_info *info,
                                         struct pkcs1_private_key *key, struct pkcs1_bytes *listed);

/* Puts the primes that are encoded in `listed`, one behind the other, into `others`, as many as fit. The other elements
 * are unchanged. */
void pkcs1_c_other_primes(const uint8_t *listed, size_t listed_len, struct pkcs1_other_prime *others,
                          size_t others_room);

uint32_t pkcs1_c_private_key_encode(const struct pkcs1_private_key *key, const struct pkcs1_other_prime *others,
                                    size_t others_len, uint8_t *out, size_t room, size_t *len);
uint32_t pkcs1_c_private_key_info_encode(const struct pkcs1_private_key_info *info, uint8_t *out, size_t room,
                                         size_t *len);
uint32_t pkcs1_c_pss_params_decode(const uint8_t *der, size_t der_len, struct pkcs1_pss_params *params);
uint32_t pkcs1_c_pss_params_decode_strict(const uint8_t *der, size_t der_len, struct pkcs1_pss_params *params);
uint32_t pkcs1_c_pss_params_encode(const struct pkcs1_pss_params *params, uint8_t *out, size_t room, size_t *len);
uint32_t pkcs1_c_pss_algorithm_decode(const uint8_t *der, size_t der_len, struct pkcs1_pss_params *params);
uint32_t pkcs1_c_pss_algorithm_decode_strict(const uint8_t *der, size_t der_len, struct pkcs1_pss_params *params);
uint32_t pkcs1_c_pss_algorithm_encode(const struct pkcs1_pss_params *params, uint8_t *out, size_t room, size_t *len);
uint32_t pkcs1_c_oaep_params_decode(const uint8_t *der, size_t der_len, struct pkcs1_oaep_params *params);
uint32_t pkcs1_c_oaep_params_decode_strict(const uint8_t *der, size_t der_len, struct pkcs1_oaep_params *params);
uint32_t pkcs1_c_oaep_params_encode(const struct pkcs1_oaep_params *params, uint8_t *out, size_t room, size_t *len);
uint32_t pkcs1_c_oaep_algorithm_decode(const uint8_t *der, size_t der_len, struct pkcs1_oaep_params *params);
uint32_t pkcs1_c_oaep_algorithm_decode_strict(const uint8_t *der, size_t der_len, struct pkcs1_oaep_params *params);
uint32_t pkcs1_c_oaep_algorithm_encode(const struct pkcs1_oaep_params *params, uint8_t *out, size_t room, size_t *len);

/* Whether it is the hash function with this identifier, with NULL or without parameters. */
bool pkcs1_c_algorithm_is(const struct pkcs1_algorithm *algorithm, const struct pkcs1_bytes *oid);

/* Whether the hash function has this identifier, and the mask generation function is MGF1 with the same one. */
bool pkcs1_c_uses_hash(const struct pkcs1_algorithm *hash, const struct pkcs1_mask_gen *mask_gen,
                       const struct pkcs1_bytes *oid);

/* Whether both are the same hash function, or mean the same. NULL and no parameters of a hash function are alike. */
bool pkcs1_c_algorithm_is_same_hash(const struct pkcs1_algorithm *left, const struct pkcs1_algorithm *right);
bool pkcs1_c_pss_means_same(const struct pkcs1_pss_params *left, const struct pkcs1_pss_params *right);
bool pkcs1_c_oaep_means_same(const struct pkcs1_oaep_params *left, const struct pkcs1_oaep_params *right);

/* Whether the source is pSpecified with an OCTET STRING. If so, its octets are in `label`. If not, it is unchanged. */
bool pkcs1_c_oaep_label(const struct pkcs1_algorithm *source, struct pkcs1_bytes *label);

/* These set `text` to a static string with a zero at the end, which `len` counts. */
void pkcs1_c_status_text(uint32_t status, struct pkcs1_bytes *text);
void pkcs1_c_version(struct pkcs1_bytes *text);

#endif
