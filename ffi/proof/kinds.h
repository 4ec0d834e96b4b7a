/* What is read and written, and the hash functions that have names. */
enum kind { PUBLIC_KEY, PRIVATE_KEY, PRIVATE_KEY_INFO, PSS_PARAMS, PSS_PARAMS_STRICT, PSS_ALGORITHM,
            PSS_ALGORITHM_STRICT, OAEP_PARAMS, OAEP_PARAMS_STRICT, OAEP_ALGORITHM, OAEP_ALGORITHM_STRICT };

/* The hash functions of NIST that pkcs1.h names, and their numbers: { nistalgorithm hashalgs(2) n } (RFC 5758). */
#define NIST_HASHES(EACH) \
    EACH(sha256, 1) EACH(sha384, 2) EACH(sha512, 3) EACH(sha224, 4) EACH(sha512_224, 5) EACH(sha512_256, 6)
