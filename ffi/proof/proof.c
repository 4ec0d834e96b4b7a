/* What ffi/proof/prove.sh proves: pkcs1.c as it is, what its calls promise, and the octets of its identifiers. */
#include "promises.c"
#include "../lib/pkcs1.c"

/* The arcs as RFC 8017 and RFC 5758 have them, in octets as X.690 8.19 says: 840 and 113549 take two and three. */
/*@ predicate is_nist_hash{L}(struct pkcs1_bytes s, integer last) = s.len == 9 && s.data[0] == 2 * 40 + 16 &&
  @   s.data[1] == 128 + 840 / 128 && s.data[2] == 840 % 128 && s.data[3] == 1 && s.data[4] == 101 && s.data[5] == 3 &&
  @   s.data[6] == 4 && s.data[7] == 2 && s.data[8] == last;
  @ predicate is_pkcs1{L}(struct pkcs1_bytes s, integer last) = s.len == 9 && s.data[0] == 1 * 40 + 2 &&
  @   s.data[1] == 128 + 840 / 128 && s.data[2] == 840 % 128 && s.data[3] == 128 + 113549 / 16384 &&
  @   s.data[4] == 128 + 113549 / 128 % 128 && s.data[5] == 113549 % 128 && s.data[6] == 1 && s.data[7] == 1 &&
  @   s.data[8] == last;
  @*/
#define NAMED(name, number) ensures name: is_nist_hash(pkcs1_oid_##name, number);
/*@ terminates \true; exits \false; assigns \nothing;
  @ ensures sha1: pkcs1_oid_sha1.len == 5 && pkcs1_oid_sha1.data[0] == 1 * 40 + 3 && pkcs1_oid_sha1.data[1] == 14 &&
  @   pkcs1_oid_sha1.data[2] == 3 && pkcs1_oid_sha1.data[3] == 2 && pkcs1_oid_sha1.data[4] == 26;
  @ NIST_HASHES(NAMED)
  @ ensures rsa_encryption: is_pkcs1(pkcs1_oid_rsa_encryption, 1);
  @ ensures rsaes_oaep: is_pkcs1(pkcs1_oid_rsaes_oaep, 7);
  @ ensures mgf1: is_pkcs1(pkcs1_oid_mgf1, 8);
  @ ensures p_specified: is_pkcs1(pkcs1_oid_p_specified, 9);
  @ ensures rsassa_pss: is_pkcs1(pkcs1_oid_rsassa_pss, 10); */
static void identifiers(void) {
}
