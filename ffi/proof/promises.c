/* What pkcs1.h and README promise of each call, said once more, in basic terms: prove.sh proves that it follows from
 * the call's contract in pkcs1.acsl.h, and from nothing else. So a contract can't promise less, or require more, than
 * is said here. What nothing else is known of is shared, as status_of and octets_of are, and one
 * predicate, other_in. No other predicate is, and no macro. */
#include "pkcs1.acsl.h"

/* ---- What a struct points to: of each of its bytes, P. IF(flag, it): of those behind a flag. ---- */
#define EACH_bytes(s, P, IF) P(s)
#define EACH_public_key(s, P, IF) P(s.modulus) && P(s.public_exponent)
#define EACH_private_key(s, P, IF)                                                                                     \
    P(s.modulus) && P(s.public_exponent) && P(s.private_exponent) && P(s.prime1) && P(s.prime2) && P(s.exponent1) &&   \
        P(s.exponent2) && P(s.coefficient)
#define EACH_prime(s, P, IF) P(s.prime) && P(s.exponent) && P(s.coefficient)
#define EACH_info(s, P, IF) P(s.private_key) && IF(s.has_attributes, P(s.attributes))
#define EACH_algorithm(s, P, IF) P(s.oid) && IF(s.has_parameters, P(s.parameters))
#define EACH_mask_gen(s, P, IF) P(s.oid) && IF(s.has_hash, EACH_algorithm(s.hash, P, IF))
#define EACH_pss(s, P, IF) EACH_algorithm(s.hash, P, IF) && EACH_mask_gen(s.mask_gen, P, IF)
#define EACH_oaep(s, P, IF) EACH_pss(s, P, IF) && EACH_algorithm(s.p_source, P, IF)
/* The fields after a false flag aren't read. But a decoder sets them too. */
#define IS_READ(flag, it) (flag != 0 ==> (it))
#define IS_SET(flag, it) (it)

/* Null is allowed where the length is 0. What is filled is never null. It lies in the input, or in the
 * library for a default. */
#define ARE_THERE(data, len) (len == 0 || (data != \null && \valid_read(data + (0 .. len - 1))))
/*@ predicate there{L}(struct pkcs1_bytes b) = ARE_THERE(b.data, b.len);
  @ predicate far{L}(struct pkcs1_bytes b, uint8_t *out, integer room, size_t *len) =
  @   \separated(b.data + (0 .. b.len - 1), out + (0 .. room - 1)) && \separated(b.data + (0 .. b.len - 1), len);
  @ predicate valid{L}(struct pkcs1_bytes b) = b.data != \null && \valid_read(b.data + (0 .. b.len - 1));
  @ predicate lies{L}(struct pkcs1_bytes b, uint8_t *der, integer der_len) = of_library(b.data, b.len) ||
  @   \exists integer at; 0 <= at && at + b.len <= der_len && b.data == der + at; */
#define IS_THERE(b) there(b)
#define IS_FAR(b) far(b, out, room, len)
#define IS_VALID(b) valid(b)
#define LIES(b) lies(b, der, der_len)
#define STRUCT(name, type)                                                                                             \
    predicate readable_##name{L}(struct type s) = EACH_##name(s, IS_THERE, IS_READ);                                   \
    predicate apart_##name{L}(struct type s, uint8_t *out, integer room, size_t *len) =                                \
        EACH_##name(s, IS_FAR, IS_READ);                                                                             \
    predicate valid_##name{L}(struct type s) = EACH_##name(s, IS_VALID, IS_SET);                                       \
    predicate lies_##name{L}(struct type s, uint8_t *der, integer der_len) = EACH_##name(s, LIES, IS_SET);
/*@ STRUCT(bytes, pkcs1_bytes)
  @ STRUCT(public_key, pkcs1_public_key)
  @ STRUCT(private_key, pkcs1_private_key)
  @ STRUCT(prime, pkcs1_other_prime)
  @ STRUCT(info, pkcs1_private_key_info)
  @ STRUCT(algorithm, pkcs1_algorithm)
  @ STRUCT(mask_gen, pkcs1_mask_gen)
  @ STRUCT(pss, pkcs1_pss_params)
  @ STRUCT(oaep, pkcs1_oaep_params)
  @ // A flag is 0 or 1. What is after one that is 0 is empty.
  @ predicate flag(integer it) = it == 0 || it == 1;
  @ predicate clean_public_key(struct pkcs1_public_key s) = \true;
  @ predicate clean_private_key(struct pkcs1_private_key s) = \true;
  @ predicate clean_info(struct pkcs1_private_key_info s) =
  @   flag(s.has_attributes) && (s.has_attributes == 0 ==> s.attributes.len == 0);
  @ predicate clean_algorithm(struct pkcs1_algorithm s) =
  @   flag(s.has_parameters) && (s.has_parameters == 0 ==> s.tag == 0 && s.parameters.len == 0);
  @ predicate clean_mask_gen(struct pkcs1_mask_gen s) = flag(s.has_hash) && clean_algorithm(s.hash) &&
  @   (s.has_hash == 0 ==> s.hash.oid.len == 0 && s.hash.has_parameters == 0);
  @ predicate clean_pss(struct pkcs1_pss_params s) = clean_algorithm(s.hash) && clean_mask_gen(s.mask_gen);
  @ predicate clean_oaep(struct pkcs1_oaep_params s) =
  @   clean_algorithm(s.hash) && clean_mask_gen(s.mask_gen) && clean_algorithm(s.p_source);
  @ // The hash function, with NULL.
  @ predicate with_null_alone{L}(struct pkcs1_algorithm s, struct pkcs1_bytes hash) = s.oid == hash &&
  @   s.has_parameters == 1 && s.tag == 0x05 && s.parameters.data != \null && s.parameters.len == 0;
  @ predicate mgf1_alone{L}(struct pkcs1_mask_gen s, struct pkcs1_bytes hash) =
  @   s.oid == pkcs1_oid_mgf1 && s.has_hash == 1 && with_null_alone(s.hash, hash); */

/* ---- The value that a struct holds ---- */
#define OCTETS(b) octets_of(b.data, b.len)
/*@ logic value value_public_key{L}(struct pkcs1_public_key s) =
  @   public_key(OCTETS(s.modulus), OCTETS(s.public_exponent));
  @ logic value value_private_key{L}(struct pkcs1_private_key s) =
  @   private_key(OCTETS(s.modulus), OCTETS(s.public_exponent), OCTETS(s.private_exponent), OCTETS(s.prime1),
  @               OCTETS(s.prime2), OCTETS(s.exponent1), OCTETS(s.exponent2), OCTETS(s.coefficient), s.other_primes);
  @ logic value value_info{L}(struct pkcs1_private_key_info s) = s.has_attributes == 0 ?
  @   container(OCTETS(s.private_key)) : container_with(OCTETS(s.private_key), OCTETS(s.attributes));
  @ logic value value_algorithm{L}(struct pkcs1_algorithm s) = s.has_parameters == 0 ?
  @   without(OCTETS(s.oid)) : algorithm_with(OCTETS(s.oid), s.tag, OCTETS(s.parameters));
  @ logic value value_mask_gen{L}(struct pkcs1_mask_gen s) = s.has_hash == 0 ?
  @   without(OCTETS(s.oid)) : mask_gen_with(OCTETS(s.oid), value_algorithm(s.hash));
  @ logic value value_pss{L}(struct pkcs1_pss_params s) =
  @   pss_params(value_algorithm(s.hash), value_mask_gen(s.mask_gen), s.salt_len, s.trailer_field);
  @ logic value value_oaep{L}(struct pkcs1_oaep_params s) =
  @   oaep_params(value_algorithm(s.hash), value_mask_gen(s.mask_gen), value_algorithm(s.p_source)); */

/* ---- Decoders ---- */
#define RETURNS terminates \true; exits \false
#define SUCCEEDS \result == PKCS1_OK ==>
#define FAILS \result != PKCS1_OK ==>
#define INPUT \old(octets_of(der, der_len))
#define MAY_DECODE(s) requires ARE_THERE(der, der_len) && \valid(s) && \separated(s, der + (0 .. der_len - 1))
/* Fills `s`. What it held before doesn't matter, and stays there after an error. */
#define DECODED(kind, name, s)                                                                                         \
    ensures status: \result == status_of(kind, INPUT);                                                                 \
    ensures empty: der_len == 0 ==> \result != PKCS1_OK;                                                               \
    ensures holds: SUCCEEDS *s == name##_of(kind, der, INPUT);                                                         \
    ensures valid: SUCCEEDS valid_##name(*s);                                                                          \
    ensures lies: SUCCEEDS lies_##name(*s, der, der_len);                                                              \
    ensures clean: SUCCEEDS clean_##name(*s);                                                                          \
    ensures unchanged: FAILS *s == \old(*s)
#define DECODES(kind, name, s) MAY_DECODE(s); RETURNS; assigns *s; DECODED(kind, name, s)
/* The first of the other primes are put into `others`. The key says how many there are. They point into the list of
 * primes, which is in the input. */
#define MAY_PUT_OTHERS                                                                                                 \
    requires \valid(others + (0 .. others_room - 1));                                                                  \
    requires \separated(others + (0 .. others_room - 1), key) &&                                                       \
        \separated(others + (0 .. others_room - 1), der + (0 .. der_len - 1))
#define PUTS_OTHERS(kind)                                                                                              \
    ensures count: SUCCEEDS key->other_primes == count_of(\old(OCTETS(listed_of(kind, der, octets_of(der, der_len)))));\
    ensures others: SUCCEEDS \forall integer i; 0 <= i < others_room && i < key->other_primes ==>                      \
        others[i] == other_of(listed_of(kind, der, INPUT).data,                                                        \
                              \old(OCTETS(listed_of(kind, der, octets_of(der, der_len)))), i);                         \
    ensures lie: SUCCEEDS \forall integer i; 0 <= i < others_room && i < key->other_primes ==>                         \
        other_in(others[i], listed_of(kind, der, INPUT).data, listed_of(kind, der, INPUT).len);                        \
    ensures list: SUCCEEDS listed_of(kind, der, INPUT).len == 0 || lies(listed_of(kind, der, INPUT), der, der_len);    \
    ensures rest: SUCCEEDS \forall integer i; key->other_primes <= i < others_room ==> others[i] == \old(others[i]);   \
    ensures rest: FAILS \forall integer i; 0 <= i < others_room ==> others[i] == \old(others[i])

#define DER const uint8_t *der, size_t der_len
#define PROMISES(call, parameters, arguments)                                                                          \
    static uint32_t promises_##call parameters { return pkcs1_##call arguments; }
#define PROMISES_DECODE(call, type, s) PROMISES(call, (DER, struct type *s), (der, der_len, s))

/*@ DECODES(PUBLIC_KEY, public_key, key); */ PROMISES_DECODE(public_key_decode, pkcs1_public_key, key)
/*@ MAY_DECODE(key); MAY_PUT_OTHERS; RETURNS; assigns *key, others[0 .. others_room - 1];
  @ DECODED(PRIVATE_KEY, private_key, key); PUTS_OTHERS(PRIVATE_KEY); */
PROMISES(private_key_decode, (DER, struct pkcs1_private_key *key, struct pkcs1_other_prime *others, size_t others_room),
         (der, der_len, key, others, others_room))
/*@ MAY_DECODE(key); MAY_DECODE(info); MAY_PUT_OTHERS;
  @ requires \separated(info, key) && \separated(info, others + (0 .. others_room - 1));
  @ RETURNS; assigns *info, *key, others[0 .. others_room - 1];
  @ DECODED(PRIVATE_KEY_INFO, info, info);
  @ DECODED(PRIVATE_KEY_INFO, private_key, key); PUTS_OTHERS(PRIVATE_KEY_INFO); */
PROMISES(private_key_info_decode, (DER, struct pkcs1_private_key_info *info, struct pkcs1_private_key *key,
         struct pkcs1_other_prime *others, size_t others_room), (der, der_len, info, key, others, others_room))
/*@ DECODES(PSS_PARAMS, pss, params); */ PROMISES_DECODE(pss_params_decode, pkcs1_pss_params, params)
/*@ DECODES(PSS_PARAMS_STRICT, pss, params); */ PROMISES_DECODE(pss_params_decode_strict, pkcs1_pss_params, params)
/*@ DECODES(PSS_ALGORITHM, pss, params); */ PROMISES_DECODE(pss_algorithm_decode, pkcs1_pss_params, params)
/*@ DECODES(PSS_ALGORITHM_STRICT, pss, params); */
PROMISES_DECODE(pss_algorithm_decode_strict, pkcs1_pss_params, params)
/*@ DECODES(OAEP_PARAMS, oaep, params); */ PROMISES_DECODE(oaep_params_decode, pkcs1_oaep_params, params)
/*@ DECODES(OAEP_PARAMS_STRICT, oaep, params); */ PROMISES_DECODE(oaep_params_decode_strict, pkcs1_oaep_params, params)
/*@ DECODES(OAEP_ALGORITHM, oaep, params); */ PROMISES_DECODE(oaep_algorithm_decode, pkcs1_oaep_params, params)
/*@ DECODES(OAEP_ALGORITHM_STRICT, oaep, params); */
PROMISES_DECODE(oaep_algorithm_decode_strict, pkcs1_oaep_params, params)

/* ---- Encoders ---- */
#define READABLE(name, s) (\valid_read(s) && readable_##name(*s))
#define MAY_ENCODE(name, s)                                                                                            \
    requires READABLE(name, s) && (room == 0 || (out != \null && \valid(out + (0 .. room - 1)))) && \valid(len);       \
    requires \separated(s, out + (0 .. room - 1), len) && apart_##name(*s, out, room, len)
/* The encoding of the value `v` is put to the front of `out`, or all is as it was, but `*len` of NO_ROOM. */
#define ENCODED(kind, v)                                                                                               \
    RETURNS; assigns out[0 .. room - 1], *len;                                                                         \
    ensures status: \result == write_status(kind, \old(v), room);                                                      \
    ensures length: \result == PKCS1_OK || \result == PKCS1_NO_ROOM ==> *len == written_len(kind, \old(v));            \
    ensures length: \result != PKCS1_OK && \result != PKCS1_NO_ROOM ==> *len == \old(*len);                            \
    ensures fits: SUCCEEDS *len <= room;                                                                               \
    ensures no_room: \result == PKCS1_NO_ROOM ==> room < *len;                                                         \
    ensures encoding: SUCCEEDS \forall integer i; 0 <= i < *len ==> out[i] == written_octet(kind, \old(v), i);         \
    ensures rest: SUCCEEDS \forall integer i; *len <= i < room ==> out[i] == \old(out[i]);                             \
    ensures unchanged: FAILS \forall integer i; 0 <= i < room ==> out[i] == \old(out[i])
#define ENCODES_VALUE(kind, name, s) MAY_ENCODE(name, s); ENCODED(kind, value_##name(*s))
#define BUFFER uint8_t *out, size_t room, size_t *len
#define PROMISES_ENCODE(call, type, s) PROMISES(call, (const struct type *s, BUFFER), (s, out, room, len))

/*@ ENCODES_VALUE(PUBLIC_KEY, public_key, key); */ PROMISES_ENCODE(public_key_encode, pkcs1_public_key, key)
/*@ MAY_ENCODE(private_key, key);
  @ requires ARE_THERE(others, others_len) && \separated(others + (0 .. others_len - 1), out + (0 .. room - 1), len);
  @ requires \forall integer i; 0 <= i < others_len ==> readable_prime(others[i]) &&
  @   apart_prime(others[i], out, room, len);
  @ ENCODED(PRIVATE_KEY, with_others(value_private_key(*key), others_seen(others, others_len)));
  @ ensures other_primes: \old(key->other_primes) != others_len ==> \result == PKCS1_OTHER_PRIMES; */
PROMISES(private_key_encode, (const struct pkcs1_private_key *key, const struct pkcs1_other_prime *others,
         size_t others_len, BUFFER), (key, others, others_len, out, room, len))
/*@ ENCODES_VALUE(PRIVATE_KEY_INFO, info, info); */
PROMISES_ENCODE(private_key_info_encode, pkcs1_private_key_info, info)
/*@ ENCODES_VALUE(PSS_PARAMS, pss, params); */ PROMISES_ENCODE(pss_params_encode, pkcs1_pss_params, params)
/*@ ENCODES_VALUE(PSS_ALGORITHM, pss, params); */ PROMISES_ENCODE(pss_algorithm_encode, pkcs1_pss_params, params)
/*@ ENCODES_VALUE(OAEP_PARAMS, oaep, params); */ PROMISES_ENCODE(oaep_params_encode, pkcs1_oaep_params, params)
/*@ ENCODES_VALUE(OAEP_ALGORITHM, oaep, params); */ PROMISES_ENCODE(oaep_algorithm_encode, pkcs1_oaep_params, params)

/* ---- Tests of a value: true exactly if `it` is so. They change nothing. ---- */
#define TRUE_IF(it) RETURNS; assigns \nothing; ensures tells: flag(\result) && (\result == 1 <==> (it))
#define COMPARES(name, it)                                                                                             \
    requires READABLE(name, left) && READABLE(name, right); TRUE_IF(it(value_##name(*left), value_##name(*right)))
#define USES(s)                                                                                                        \
    requires \valid_read(s) && readable_algorithm(s->hash) && readable_mask_gen(s->mask_gen);                          \
    requires READABLE(bytes, hash);                                                                                    \
    TRUE_IF(uses_hash(value_algorithm(s->hash), value_mask_gen(s->mask_gen), OCTETS((*hash))))
#define PROMISES_TEST(call, type, s, other, t)                                                                         \
    static bool promises_##call(const struct type *s, const struct other *t) { return pkcs1_##call(s, t); }

/*@ requires READABLE(algorithm, algorithm) && READABLE(bytes, oid);
  @ TRUE_IF(is_hash(value_algorithm(*algorithm), OCTETS((*oid)))); */
PROMISES_TEST(algorithm_is, pkcs1_algorithm, algorithm, pkcs1_bytes, oid)
/*@ USES(params); */ PROMISES_TEST(pss_is, pkcs1_pss_params, params, pkcs1_bytes, hash)
/*@ USES(params); */ PROMISES_TEST(oaep_is, pkcs1_oaep_params, params, pkcs1_bytes, hash)
/*@ COMPARES(algorithm, are_same_hash); */
PROMISES_TEST(algorithm_is_same_hash, pkcs1_algorithm, left, pkcs1_algorithm, right)
/*@ COMPARES(pss, are_same_pss); */ PROMISES_TEST(pss_means_same, pkcs1_pss_params, left, pkcs1_pss_params, right)
/*@ COMPARES(oaep, are_same_oaep); */ PROMISES_TEST(oaep_means_same, pkcs1_oaep_params, left, pkcs1_oaep_params, right)
/*@ requires READABLE(bytes, left) && READABLE(bytes, right);
  @ TRUE_IF(left->len == right->len && \forall integer i; 0 <= i < left->len ==> left->data[i] == right->data[i]); */
PROMISES_TEST(oid_equal, pkcs1_bytes, left, pkcs1_bytes, right)
/*@ requires \valid_read(params) && readable_algorithm(params->p_source) && \valid(label);
  @ requires \separated(label, params); RETURNS; assigns *label;
  @ ensures tells: flag(\result) && (\result == 1 <==> \old(has_label(value_algorithm(params->p_source))));
  @ ensures label: \result == 1 ==> params->p_source.has_parameters != 0 && label->data != \null &&
  @   label->len == params->p_source.parameters.len &&
  @   (label->len != 0 ==> label->data == params->p_source.parameters.data);
  @ ensures unchanged: \result == 0 ==> *label == \old(*label); */
static bool promises_oaep_label(const struct pkcs1_oaep_params *params, struct pkcs1_bytes *label) {
    return pkcs1_oaep_label(params, label);
}

/* ---- Numbers and texts, which a zero ends ---- */
/*@ requires IS_THERE(number); RETURNS; assigns \nothing; ensures bits: \result == bit_len_of(OCTETS(number)); */
static uint64_t promises_bit_len(struct pkcs1_bytes number) { return pkcs1_bit_len(number); }
#define STRING(it)                                                                                                     \
    RETURNS; assigns \nothing; ensures text: \result == it;                                                            \
    ensures string: \exists integer n; 0 <= n && \valid_read(\result + (0 .. n)) && \result[n] == 0
/*@ STRING(text_of(status)); */
static const char *promises_strerror(uint32_t status) { return pkcs1_strerror(status); }
/*@ STRING(version_text); */ static const char *promises_version(void) { return pkcs1_version(); }

/* ---- Parameters for a hash function ---- */
#define SETS_ALL(more)                                                                                                 \
    requires \valid(params) && \valid_read(hash) && \separated(params, hash);                                          \
    requires \separated(params, &pkcs1_oid_mgf1) && \separated(params, &pkcs1_oid_p_specified);                        \
    RETURNS; assigns *params; ensures hash: with_null_alone(params->hash, \old(*hash));                    \
    ensures mask_gen: mgf1_alone(params->mask_gen, \old(*hash));                                                       \
    ensures fields: more
/*@ SETS_ALL(params->salt_len == salt_len && params->trailer_field == 1); */
static void promises_pss_params_init(struct pkcs1_pss_params *params, const struct pkcs1_bytes *hash,
                                     uint8_t salt_len) {
    pkcs1_pss_params_init(params, hash, salt_len);
}
/*@ requires ARE_THERE(label, label_len);
  @ SETS_ALL(params->p_source.oid == pkcs1_oid_p_specified && params->p_source.has_parameters == 1 &&
  @   params->p_source.tag == 0x04 && params->p_source.parameters.len == label_len &&
  @   params->p_source.parameters.data != \null && (label_len != 0 ==> params->p_source.parameters.data == label)); */
static void promises_oaep_params_init(struct pkcs1_oaep_params *params, const struct pkcs1_bytes *hash,
                                      const uint8_t *label, size_t label_len) {
    pkcs1_oaep_params_init(params, hash, label, label_len);
}
