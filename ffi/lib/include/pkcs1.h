/* RSA keys and RSA algorithm parameters in DER, as PKCS #1 (RFC 8017) and PKCS #8 (RFC 5208) have them.
 *
 * A FIRST CALL
 *
 *     struct pkcs1_public_key key;
 *     uint32_t status = pkcs1_public_key_decode(der, der_len, &key);
 *     if (status != PKCS1_OK)
 *         fprintf(stderr, "%s\n", pkcs1_strerror(status));
 *
 *     cc program.c $(pkg-config --cflags --libs libpkcs1)
 *
 * Where the library is in a folder that the loader doesn't know, add -Wl,-rpath,FOLDER.
 *
 * WHAT IT READS
 *
 * Only DER, the binary form. It doesn't read PEM, and nothing encrypted. OpenSSL converts a private key in PEM, an
 * encrypted one, or one under id-RSASSA-PSS:
 *     openssl rsa -in IN -traditional -outform DER -out OUT
 * It doesn't read SubjectPublicKeyInfo, which in PEM is "BEGIN PUBLIC KEY". OpenSSL converts that too:
 *     openssl rsa -pubin -in IN -RSAPublicKey_out -outform DER -out OUT
 * It reads no salt length over 255. With SHA-256, OpenSSL 3.0 writes such a one by default for keys over 2313 bits.
 * What it writes with -sigopt rsa_pss_saltlen:digest is read.
 *
 * The calls are proved. ffi/proof/pkcs1.acsl.h says what.
 *
 * Only the encoding is checked. Nothing checks that the modulus is the product of the primes, or that a key is strong.
 *
 * DECODERS
 *
 * They are the calls .._decode and .._decode_strict.
 * Input: `der` is one whole encoding, with nothing behind it.
 * PKCS1_OK: the struct holds the value that `der` encodes.
 * Any other status: no value of the type has this encoding, but for strict decoders. What the call would have filled is
 *   unchanged. The status is that of the first fault from the left.
 * Order of faults: an AlgorithmIdentifier or a PKCS #8 container is read whole first. Then comes which algorithm it is,
 *   then whether it has parameters, then what is in the parameters or in the key. So 30 03 06 01 2a 00 is
 *   PKCS1_TRAILING_DATA, not PKCS1_OID_UNKNOWN. The version of a private key is compared behind its primes.
 * Strict decoders: they also reject a default that is written out, which the others accept. They look for one when all
 *   else is right.
 * Lifetimes: nothing is copied. A `pkcs1_bytes` that a decoder fills points into `der`, or into the library for a
 *   default that the encoding leaves out. This is so of numbers and identifiers too. Keep `der` as long as you use it.
 *   Free nothing. It is never null.
 * Numbers: unsigned, most significant octet first, without leading zeros. The number 0 is one octet.
 *
 * ENCODERS
 *
 * They are the calls .._encode.
 * PKCS1_OK: the first `*len` octets of `out` are the DER of the value. The rest of `out` is unchanged.
 * PKCS1_NO_ROOM: `out` is too short, and `*len` is the length that is needed. A call with a null `out` and room 0 asks
 *   for that length.
 * Any other status: nothing was written, and `*len` is unchanged. The value has no encoding of at most 4294967295
 *   octets. The status is that of the first field, in their order, that can't be held, such as a number without octets.
 *   If each can, the encoding is too long, and it is PKCS1_OVERFLOW.
 * pkcs1_private_key_encode: if there aren't as many other primes as the key says, it is PKCS1_OTHER_PRIMES. On a 32-bit
 *   or big-endian machine over 64 of them aren't written. It is PKCS1_OUT_OF_MEMORY then, even if the key has a number
 *   without octets, but not if one of the other primes has.
 * pkcs1_private_key_info_encode: the key that it is given is read first. If that fails, the status is that of decoding.
 * Errors: after any of them `out` is unchanged.
 * Numbers: leading zeros are accepted. There must be at least one octet.
 *
 * WHAT YOU PASS
 *
 * Structs that a call fills: they may be uninitialised.
 * Structs that a call reads: their fields must be set. Start from `{0}`, in C++ from `{}`. `data` may be null if `len`
 *   is 0. The fields after a false `has_..` aren't read.
 * Null: `der`, `others`, `out` and `label` may be null if their length is 0. No other argument may be null.
 * Overlap: `out`, `*len` and what a call fills must not overlap each other or any other argument. So `params` of
 *   .._init must not hold `hash`, nor `params` of pkcs1_oaep_label `label`. Nor may they overlap the octets that a
 *   struct points to.
 *
 * WHAT THE CALLS DO BESIDES
 *
 * Threads: the calls share no state and take no locks, so any of them may run at the same time.
 * Shared memory: the octets that `der` or `data` points to may change during a call. Structs, lengths and pointers must
 *   not. The call still returns, and reads nothing outside these octets. It writes nothing outside `out[0..room]`,
 *   `*len` and what it fills. On PKCS1_OK `*len` is at most `room`. What it returns and writes then means nothing.
 * Pointers: no call keeps one.
 * Memory: no call allocates. Of the C library they call memcpy, memmove, memset and memcmp alone, or bcmp in its place
 *   where clang compiles them. So a signal handler may make each call, and a program without a C library.
 * Stack: compiled by gcc 12 with -O2, calls take at most so many octets, whatever is passed. Functions of the C library
 *   come on top, and in a program that isn't linked with -z now, for the first call of each of them, over 2000 octets
 *   of the loader. On x86-64 assembly: 672 to decode, 688 to encode. Generated C: 1352 to decode, 904 to encode. On
 *   i386: 1600 to decode, 4180 to encode. Other machines aren't measured.
 * Time: which way a call takes on a valid private key depends alone on the lengths of its numbers and their encodings.
 *   This is tested on x86-64, not proved. Leading zeros that you pass are counted by a loop. Of other octets, status
 *   and time tell where the first fault is. If you decrypt keys without authentication, show neither to the sender.
 * Secrets: no call leaves octets of a secret number elsewhere than in `out`, but for the first, which may stay on the
 *   stack, and for those that memcpy of the C library leaves in registers. This is tested, not proved. Nothing is wiped
 *   from memory. */
#ifndef PKCS1_H
#define PKCS1_H

#include <stdbool.h>
#include <stddef.h>
#include <stdint.h>

#ifdef __cplusplus
extern "C" {
#endif

/* Stands in front of each call that returns a status: gcc and clang warn of a caller that ignores it. */
#ifdef __GNUC__
#define PKCS1_MUST_CHECK __attribute__((warn_unused_result))
#else
#define PKCS1_MUST_CHECK
#endif

#define PKCS1_VERSION_MAJOR 0
#define PKCS1_VERSION_MINOR 8
#define PKCS1_VERSION_PATCH 1
/* The number of the binary interface. It changes with any struct, call or status that was there before. The shared
 * library has it in its soname, libpkcs1.so.1, and in the version of its symbols, PKCS1_1. So a program that was built
 * for another number doesn't start. */
#define PKCS1_ABI 1

enum pkcs1_status {
    PKCS1_OK = 0,
    PKCS1_FAILED = 1,              /* not returned by these calls */
    PKCS1_INCOMPLETE = 2,          /* empty, cut off, or a field is missing */
    PKCS1_INDEFINITE_LENGTH = 3,   /* BER with an indefinite length, which isn't DER */
    PKCS1_LENGTH = 4,              /* a number without octets */
    PKCS1_NONCANONICAL = 5,        /* not DER: needless zeros in front of a number. .._strict: a default written out */
    PKCS1_OID_MALFORMED = 6,       /* an identifier that is empty, cut off, not in shortest form, or over 39 octets */
    PKCS1_OID_UNKNOWN = 7,         /* another algorithm. In PKCS #8 a key that isn't RSA, or one under id-RSASSA-PSS */
    PKCS1_OVERFLOW = 8,            /* a length past 4294967295, or in more than four octets whatever it is */
    PKCS1_OVERLENGTH = 9,          /* not DER: a length in more octets than it needs, up to four */
    PKCS1_PARAMETERS_MISSING = 10, /* an algorithm without parameters. rsaEncryption has NULL, others their own */
    PKCS1_TAG_UNEXPECTED = 11,     /* another type: PEM, PKCS #1, PKCS #8, SubjectPublicKeyInfo or an encrypted key,
                                      perhaps */
    PKCS1_TAG_UNKNOWN = 12,        /* not DER of these types: a tag octet that none of them has */
    PKCS1_TRAILING_DATA = 13,      /* octets follow the value, or a field that the type doesn't have there: a private
                                      key read as a public one, perhaps, or an AlgorithmIdentifier as parameters */
    PKCS1_VALUE = 14,              /* a negative number, or a version, salt length, trailer field or NULL that isn't
                                      allowed: a public key read as a private one, perhaps */
    PKCS1_NO_ROOM = 15,            /* `out` is too short: `*len` is the length that is needed */
    PKCS1_FILE = 16,               /* not returned by these calls */
    PKCS1_OUT_OF_MEMORY = 17,      /* writing: over 64 other primes, on a 32-bit or big-endian machine */
    PKCS1_OTHER_PRIMES = 21        /* writing: key->other_primes isn't others_len */
};

/* A description in English, as a static string. It names what the input may be instead. Any number may be given. */
const char *pkcs1_strerror(uint32_t status);

/* The version of the library as a static string, "0.8.1". The macros above are the version of the header. */
const char *pkcs1_version(void);

struct pkcs1_bytes {
    const uint8_t *data;
    size_t len;
};

/* The bit length of a number: 2048 for the modulus of an RSA-2048 key. Zero octets in front don't count. It is 0 for 0 and
 * for no octets, and UINT64_MAX for a number of more than 4294967295 octets. */
uint64_t pkcs1_bit_len(struct pkcs1_bytes number);

/* ---- Keys ---- */

struct pkcs1_public_key {
    struct pkcs1_bytes modulus, public_exponent;
};

/* Decodes a public key. */
PKCS1_MUST_CHECK
uint32_t pkcs1_public_key_decode(const uint8_t *der, size_t der_len, struct pkcs1_public_key *key);

/* Encodes a public key. */
PKCS1_MUST_CHECK
uint32_t pkcs1_public_key_encode(const struct pkcs1_public_key *key, uint8_t *out, size_t room, size_t *len);

struct pkcs1_private_key {
    struct pkcs1_bytes modulus, public_exponent, private_exponent, prime1, prime2, exponent1, exponent2, coefficient;
    size_t other_primes; /* how many primes there are past the first two: 0 for most keys */
};
struct pkcs1_other_prime {
    struct pkcs1_bytes prime, exponent, coefficient;
};

/* Decodes a private key. Puts the first `others_room` of the other primes into `others`, and leaves any further
 * elements unchanged. key->other_primes is how many there are, which may be more: it is PKCS1_OK then too. */
PKCS1_MUST_CHECK
uint32_t pkcs1_private_key_decode(const uint8_t *der, size_t der_len, struct pkcs1_private_key *key,
                                  struct pkcs1_other_prime *others, size_t others_room);

/* Encodes a private key with all its other primes. If `others_len` isn't key->other_primes, it returns
 * PKCS1_OTHER_PRIMES. */
PKCS1_MUST_CHECK
uint32_t pkcs1_private_key_encode(const struct pkcs1_private_key *key, const struct pkcs1_other_prime *others,
                                  size_t others_len, uint8_t *out, size_t room, size_t *len);

/* An RSA private key in an unencrypted PKCS #8 container. */
struct pkcs1_private_key_info {
    struct pkcs1_bytes private_key; /* the DER of the key */
    bool has_attributes;
    struct pkcs1_bytes attributes; /* their contents, which are not checked */
};

/* Decodes a container. Fills `info`, and `key` and `others` from the key in it, as pkcs1_private_key_decode does. */
PKCS1_MUST_CHECK
uint32_t pkcs1_private_key_info_decode(const uint8_t *der, size_t der_len, struct pkcs1_private_key_info *info,
                                       struct pkcs1_private_key *key, struct pkcs1_other_prime *others,
                                       size_t others_room);

/* Encodes a container. Takes the DER of the key, as pkcs1_private_key_encode writes it, and rejects octets that don't
 * encode a private key. */
PKCS1_MUST_CHECK
uint32_t pkcs1_private_key_info_encode(const struct pkcs1_private_key_info *info, uint8_t *out, size_t room,
                                       size_t *len);

/* ---- Algorithms ---- */

/* Identifiers are the contents octets of an OBJECT IDENTIFIER (X.690 8.19): at most 39. */
extern const struct pkcs1_bytes pkcs1_oid_sha1, pkcs1_oid_sha224, pkcs1_oid_sha256, pkcs1_oid_sha384, pkcs1_oid_sha512;
extern const struct pkcs1_bytes pkcs1_oid_sha512_224, pkcs1_oid_sha512_256;
extern const struct pkcs1_bytes pkcs1_oid_mgf1, pkcs1_oid_p_specified, pkcs1_oid_rsa_encryption;
extern const struct pkcs1_bytes pkcs1_oid_rsassa_pss, pkcs1_oid_rsaes_oaep;

/* Whether both are the same identifier. */
bool pkcs1_oid_equal(const struct pkcs1_bytes *left, const struct pkcs1_bytes *right);

/* The AlgorithmIdentifier of a hash function or of a source. Neither the type nor the contents of its parameters are
 * checked. If there are none, a decoder sets `tag` to 0 and `parameters` to empty. */
struct pkcs1_algorithm {
    struct pkcs1_bytes oid;
    bool has_parameters; /* false: no octet follows the identifier, which isn't the same as NULL here */
    uint8_t tag;         /* the tag octet of the parameters; 0x05: NULL */
    struct pkcs1_bytes parameters; /* their contents; of NULL: none */
};

/* Whether the algorithm is the hash function with this identifier, with NULL or without parameters. Both mean the same
 * (RFC 4055 2.1), and both are met. */
bool pkcs1_algorithm_is(const struct pkcs1_algorithm *algorithm, const struct pkcs1_bytes *oid);

/* Whether both are the same hash function: the identifiers are equal, and so are the parameters, where NULL and none
 * are alike. Whether they can be encoded isn't looked at. */
bool pkcs1_algorithm_is_same_hash(const struct pkcs1_algorithm *left, const struct pkcs1_algorithm *right);

/* A mask generation function, whose parameters are the AlgorithmIdentifier of a hash function, or absent. If they are
 * absent, a decoder sets `hash` to empty: `hash.oid.len` is 0. Even MGF1 may be without one, which a verifier should
 * reject. */
struct pkcs1_mask_gen {
    struct pkcs1_bytes oid;
    bool has_hash;
    struct pkcs1_algorithm hash;
};

/* The parameters of RSASSA-PSS (RFC 8017 A.2.3). A field that the encoding leaves out has its default. `30 00` has only
 * defaults, and is an encoding of parameters of RSAES-OAEP too: only the algorithm says which ones are meant. */
struct pkcs1_pss_params {
    struct pkcs1_algorithm hash;
    struct pkcs1_mask_gen mask_gen;
    uint8_t salt_len;      /* a salt length over 255 isn't read: PKCS1_VALUE */
    uint8_t trailer_field; /* 1 */
};

/* The parameters of RSAES-OAEP (RFC 8017 A.2.1). */
struct pkcs1_oaep_params {
    struct pkcs1_algorithm hash;
    struct pkcs1_mask_gen mask_gen;
    struct pkcs1_algorithm p_source; /* pSpecified: the label, if the tag is 0x04. Other tags are accepted too. */
};

/* Sets all fields for one hash function: MGF1 with the same one, and both with NULL parameters. The octets of the
 * identifier aren't copied, so they must live as long as `params` is used. */
void pkcs1_pss_params_init(struct pkcs1_pss_params *params, const struct pkcs1_bytes *hash, uint8_t salt_len);

/* The same for RSAES-OAEP, with a label. Nor are its octets copied. */
void pkcs1_oaep_params_init(struct pkcs1_oaep_params *params, const struct pkcs1_bytes *hash, const uint8_t *label,
                            size_t label_len);

/* Whether the hash function has the identifier `hash`, and the mask generation function is MGF1 with the same one. Each
 * may have NULL parameters or none. */
bool pkcs1_pss_is(const struct pkcs1_pss_params *params, const struct pkcs1_bytes *hash);

/* The same of parameters of RSAES-OAEP. */
bool pkcs1_oaep_is(const struct pkcs1_oaep_params *params, const struct pkcs1_bytes *hash);

/* Whether both mean the same: all fields are equal, but that hash functions, that of the mask generation function too,
 * are compared by pkcs1_algorithm_is_same_hash. Whether they can be encoded isn't looked at. */
bool pkcs1_pss_means_same(const struct pkcs1_pss_params *left, const struct pkcs1_pss_params *right);

/* The same of parameters of RSAES-OAEP. In a source NULL and no parameters aren't alike. */
bool pkcs1_oaep_means_same(const struct pkcs1_oaep_params *left, const struct pkcs1_oaep_params *right);

/* If the source is pSpecified with an OCTET STRING, sets `label` to its octets, which may be none, and returns true.
 * Another source has no label. Then it returns false, and `label` is unchanged. The octets aren't copied. */
bool pkcs1_oaep_label(const struct pkcs1_oaep_params *params, struct pkcs1_bytes *label);

/* Decodes parameters of RSASSA-PSS. Accepts a default that is written out, which DER forbids (X.690 11.5). */
PKCS1_MUST_CHECK
uint32_t pkcs1_pss_params_decode(const uint8_t *der, size_t der_len, struct pkcs1_pss_params *params);

/* The same, but returns PKCS1_NONCANONICAL for a default that is written out. */
PKCS1_MUST_CHECK
uint32_t pkcs1_pss_params_decode_strict(const uint8_t *der, size_t der_len, struct pkcs1_pss_params *params);

/* Encodes parameters of RSASSA-PSS. Leaves out each field that has its default. */
PKCS1_MUST_CHECK
uint32_t pkcs1_pss_params_encode(const struct pkcs1_pss_params *params, uint8_t *out, size_t room, size_t *len);

/* Decodes parameters of RSAES-OAEP. Accepts a default that is written out. */
PKCS1_MUST_CHECK
uint32_t pkcs1_oaep_params_decode(const uint8_t *der, size_t der_len, struct pkcs1_oaep_params *params);

/* The same, but returns PKCS1_NONCANONICAL for a default that is written out. */
PKCS1_MUST_CHECK
uint32_t pkcs1_oaep_params_decode_strict(const uint8_t *der, size_t der_len, struct pkcs1_oaep_params *params);

/* Encodes parameters of RSAES-OAEP. Leaves out each field that has its default. */
PKCS1_MUST_CHECK
uint32_t pkcs1_oaep_params_encode(const struct pkcs1_oaep_params *params, uint8_t *out, size_t room, size_t *len);

/* The same calls for the whole AlgorithmIdentifier: id-RSASSA-PSS with its parameters, as a certificate's
 * signatureAlgorithm, or id-RSAES-OAEP with its parameters, as in CMS (RFC 4055 3.1, 4.1). For another identifier the
 * decoders return PKCS1_OID_UNKNOWN, for one without parameters PKCS1_PARAMETERS_MISSING. */

/* Decodes id-RSASSA-PSS with its parameters. Accepts a default that is written out. */
PKCS1_MUST_CHECK
uint32_t pkcs1_pss_algorithm_decode(const uint8_t *der, size_t der_len, struct pkcs1_pss_params *params);

/* The same, but returns PKCS1_NONCANONICAL for a default that is written out. */
PKCS1_MUST_CHECK
uint32_t pkcs1_pss_algorithm_decode_strict(const uint8_t *der, size_t der_len, struct pkcs1_pss_params *params);

/* Encodes id-RSASSA-PSS with its parameters. Leaves out each field that has its default. */
PKCS1_MUST_CHECK
uint32_t pkcs1_pss_algorithm_encode(const struct pkcs1_pss_params *params, uint8_t *out, size_t room, size_t *len);

/* Decodes id-RSAES-OAEP with its parameters. Accepts a default that is written out. */
PKCS1_MUST_CHECK
uint32_t pkcs1_oaep_algorithm_decode(const uint8_t *der, size_t der_len, struct pkcs1_oaep_params *params);

/* The same, but returns PKCS1_NONCANONICAL for a default that is written out. */
PKCS1_MUST_CHECK
uint32_t pkcs1_oaep_algorithm_decode_strict(const uint8_t *der, size_t der_len, struct pkcs1_oaep_params *params);

/* Encodes id-RSAES-OAEP with its parameters. Leaves out each field that has its default. */
PKCS1_MUST_CHECK
uint32_t pkcs1_oaep_algorithm_encode(const struct pkcs1_oaep_params *params, uint8_t *out, size_t room, size_t *len);

#ifdef __cplusplus
}
#endif
#endif
