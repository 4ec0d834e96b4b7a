/* What the proved calls of pkcs1_c.h require and promise, and what those of pkcs1.h do, for prove.sh. A call of pkcs1.h
 * has the contract of the proved call, but takes what its head comment allows. check_contracts.py compares what
 * is required of the proved calls here with the types of their Rattle signatures, and what is promised with the Rattle
 * clauses of the same names. seam/seam.py makes of it what looks at each clause when one of them is called. */
#include <stddef.h>
#include <stdint.h>
#define char uint8_t
#include "pkcs1_c.h"
#include "kinds.h"

/* ---- Octets ---- */
/*@ axiomatic Octets {
  @   type octets;
  @   logic octets octets_of{L}(uint8_t *data, integer len) reads data[0 .. len - 1];
  @   predicate same_octets{L, M}(uint8_t *data, integer len) =
  @     \forall integer i; 0 <= i < len ==> \at(data[i], L) == \at(data[i], M);
  @   axiom no_octets{L, M}: \forall uint8_t *p, *q; octets_of{L}(p, 0) == octets_of{M}(q, 0);
  @   axiom same{L, M}: \forall uint8_t *p, integer len;
  @     same_octets{L, M}(p, len) ==> octets_of{L}(p, len) == octets_of{M}(p, len);
  @   // Constant memory of the library, in which a default lies.
  @   predicate of_library(uint8_t *data, integer len);
  @ }
  @ // What is asked of an array: `ok` by pkcs1_c.h, `given` by pkcs1.h.
  @ predicate ok{L}(uint8_t *data, integer len) = data != \null && \valid_read(data + (0 .. len - 1));
  @ predicate given{L}(uint8_t *data, integer len) = len == 0 || ok(data, len);
  @ predicate ok_out{L}(uint8_t *out, integer room) = out != \null && \valid(out + (0 .. room - 1));
  @ predicate given_out{L}(uint8_t *out, integer room) = room == 0 || ok_out(out, room);
  @ predicate is_flag(integer flag) = flag == 0 || flag == 1; */

/* ---- Structs ----
 * `ok`: the struct is as pkcs1_c.h asks. `given`: it is as pkcs1.h asks. `made`: `m` is the copy of `s` that is passed
 * on. `ok_apart`: its octets are apart from `out` and `len`. `given_apart`: those that are read are. `in`: they lie in
 * the input, or are a default. `tidy`: what is behind a false flag is empty. `seen`: the value that it holds. */

/*@ predicate ok_bytes{L}(struct pkcs1_bytes s) = ok(s.data, s.len);
  @ predicate given_bytes{L}(struct pkcs1_bytes s) = given(s.data, s.len);
  @ predicate made_bytes{L}(struct pkcs1_bytes m, struct pkcs1_bytes s) =
  @   m.len == s.len && (s.len != 0 ==> m.data == s.data);
  @ predicate ok_apart_bytes{L}(struct pkcs1_bytes s, uint8_t *out, integer room, size_t *len) =
  @   \separated(s.data + (0 .. s.len - 1), out + (0 .. room - 1)) && \separated(s.data + (0 .. s.len - 1), len);
  @ predicate given_apart_bytes{L}(struct pkcs1_bytes s, uint8_t *out, integer room, size_t *len) =
  @   ok_apart_bytes(s, out, room, len);
  @ predicate part_of{L}(struct pkcs1_bytes s, uint8_t *der, integer der_len) =
  @   s.data != \null && \exists integer i; 0 <= i && i + s.len <= der_len && s.data == der + i;
  @ predicate bytes_in{L}(struct pkcs1_bytes s, uint8_t *der, integer der_len) =
  @   part_of(s, der, der_len) || (s.data != \null && of_library(s.data, s.len));
  @ predicate tidy_bytes{L}(struct pkcs1_bytes s) = \true;
  @ logic octets bytes_seen{L}(struct pkcs1_bytes s) = octets_of(s.data, s.len); */

#define OK(type, field) ok_##type(s.field)
#define GIVEN(type, field) given_##type(s.field)
#define MADE(type, field) made_##type(m.field, s.field)
#define OK_APART(type, field) ok_apart_##type(s.field, out, room, len)
#define GIVEN_APART(type, field) given_apart_##type(s.field, out, room, len)
#define IN(type, field) type##_in(s.field, der, der_len)
#define TIDY(type, field) tidy_##type(s.field)
#define ALL(name, type, ok, given, made, apart, given_apart, in, tidy)                                                 \
    predicate ok_##name{L}(struct type s) = ok;                                                                        \
    predicate given_##name{L}(struct type s) = given;                                                                  \
    predicate made_##name{L}(struct type m, struct type s) = made;                                                     \
    predicate ok_apart_##name{L}(struct type s, uint8_t *out, integer room, size_t *len) = apart;                      \
    predicate given_apart_##name{L}(struct type s, uint8_t *out, integer room, size_t *len) = given_apart;             \
    predicate name##_in{L}(struct type s, uint8_t *der, integer der_len) = in;                                         \
    predicate tidy_##name{L}(struct type s) = tidy;
/* A struct of these fields. SAME: which others a copy has too. */
#define FIELDS(name, type, EACH, SAME)                                                                                 \
    ALL(name, type, EACH(OK), EACH(GIVEN), EACH(MADE) && SAME, EACH(OK_APART), EACH(GIVEN_APART), EACH(IN), EACH(TIDY))
/* A struct of the octets `first`, a flag and the field that it is for. EMPTY: that this field is empty in `e`. SAME:
 * what a copy has too if the flag is set. */
#define FLAGGED(name, type, first, flag, of, field, EMPTY, SAME)                                                       \
    predicate empty_##name{L}(struct type e) = EMPTY;                                                                  \
    ALL(name, type,                                                                                                    \
        ok_bytes(s.first) && ok_##of(s.field) && is_flag(s.flag),                                                      \
        given_bytes(s.first) && (s.flag != 0 ==> given_##of(s.field)),                                                 \
        made_bytes(m.first, s.first) && (s.flag != 0 ? m.flag == 1 && made_##of(m.field, s.field) && SAME              \
                                                     : m.flag == 0 && empty_##name(m)),                                \
        ok_apart_bytes(s.first, out, room, len) && ok_apart_##of(s.field, out, room, len),                             \
        given_apart_bytes(s.first, out, room, len) && (s.flag != 0 ==> given_apart_##of(s.field, out, room, len)),     \
        bytes_in(s.first, der, der_len) && of##_in(s.field, der, der_len),                                             \
        tidy_##of(s.field) && (s.flag == 0 ==> empty_##name(s)))
#define NUMBERS_OF_KEY(F)                                                                                              \
    F(bytes, modulus) && F(bytes, public_exponent) && F(bytes, private_exponent) && F(bytes, prime1) &&                \
    F(bytes, prime2) && F(bytes, exponent1) && F(bytes, exponent2) && F(bytes, coefficient)
#define TWO_NUMBERS(F) F(bytes, modulus) && F(bytes, public_exponent)
#define NUMBERS_OF_PRIME(F) F(bytes, prime) && F(bytes, exponent) && F(bytes, coefficient)
#define OF_PSS(F) F(algorithm, hash) && F(mask_gen, mask_gen)
#define OF_OAEP(F) F(algorithm, hash) && F(mask_gen, mask_gen) && F(algorithm, p_source)
/*@ FIELDS(public_key, pkcs1_public_key, TWO_NUMBERS, \true)
  @ FIELDS(private_key, pkcs1_private_key, NUMBERS_OF_KEY, m.other_primes == s.other_primes)
  @ FIELDS(other, pkcs1_other_prime, NUMBERS_OF_PRIME, \true)
  @ FLAGGED(info, pkcs1_private_key_info, private_key, has_attributes, bytes, attributes, e.attributes.len == 0, \true)
  @ FLAGGED(algorithm, pkcs1_algorithm, oid, has_parameters, bytes, parameters,
  @         e.tag == 0 && e.parameters.len == 0, m.tag == s.tag)
  @ FLAGGED(mask_gen, pkcs1_mask_gen, oid, has_hash, algorithm, hash,
  @         e.hash.oid.len == 0 && e.hash.has_parameters == 0 && empty_algorithm(e.hash), \true)
  @ FIELDS(pss, pkcs1_pss_params, OF_PSS, m.salt_len == s.salt_len && m.trailer_field == s.trailer_field)
  @ FIELDS(oaep, pkcs1_oaep_params, OF_OAEP, \true)
  @
  @ predicate ok_others{L}(struct pkcs1_other_prime *o, integer n) =
  @   o != \null && \forall integer i; 0 <= i < n ==> ok_other(o[i]);
  @ predicate given_others{L}(struct pkcs1_other_prime *o, integer n) =
  @   (n != 0 ==> o != \null) && \forall integer i; 0 <= i < n ==> given_other(o[i]);
  @ predicate ok_apart_others{L}(struct pkcs1_other_prime *o, integer n, uint8_t *out, integer room, size_t *len) =
  @   \forall integer i; 0 <= i < n ==> ok_apart_other(o[i], out, room, len);
  @ predicate given_apart_others{L}(struct pkcs1_other_prime *o, integer n, uint8_t *out, integer room, size_t *len) =
  @   \forall integer i; 0 <= i < n ==> given_apart_other(o[i], out, room, len);
  @ predicate has_empty_number{L}(struct pkcs1_other_prime *o, integer n) = \exists integer i; 0 <= i < n &&
  @   (o[i].prime.len == 0 || o[i].exponent.len == 0 || o[i].coefficient.len == 0); */

/* ---- Values ---- */
/*@ axiomatic Values {
  @   type value;
  @   logic value public_key(octets modulus, octets public_exponent);
  @   logic value private_key(octets n, octets e, octets d, octets p, octets q, octets dp, octets dq, octets qinv,
  @                           integer other_primes);
  @   logic value with_others(value private_key, value others);
  @   logic value other_prime(octets prime, octets exponent, octets coefficient);
  @   logic value container(octets private_key); logic value container_with(octets private_key, octets attributes);
  @   logic value without(octets oid); logic value algorithm_with(octets oid, integer tag, octets parameters);
  @   logic value mask_gen_with(octets oid, value hash);
  @   logic value pss_params(value hash, value mask_gen, integer salt_len, integer trailer_field);
  @   logic value oaep_params(value hash, value mask_gen, value p_source);
  @ }
  @ logic value public_key_seen{L}(struct pkcs1_public_key s) =
  @   public_key(bytes_seen(s.modulus), bytes_seen(s.public_exponent));
  @ logic value private_key_seen{L}(struct pkcs1_private_key s) =
  @   private_key(bytes_seen(s.modulus), bytes_seen(s.public_exponent), bytes_seen(s.private_exponent),
  @               bytes_seen(s.prime1), bytes_seen(s.prime2), bytes_seen(s.exponent1), bytes_seen(s.exponent2),
  @               bytes_seen(s.coefficient), s.other_primes);
  @ logic value other_seen{L}(struct pkcs1_other_prime s) =
  @   other_prime(bytes_seen(s.prime), bytes_seen(s.exponent), bytes_seen(s.coefficient));
  @ axiomatic Others {
  @   logic value others_seen{L}(struct pkcs1_other_prime *o, integer n)
  @     reads o[0 .. n - 1], o[0 .. n - 1].prime.data[..];
  @   axiom others_alike{L, M}: \forall struct pkcs1_other_prime *o, *q, integer n;
  @     (\forall integer i; 0 <= i < n ==> other_seen{L}(\at(o[i], L)) == other_seen{M}(\at(q[i], M))) ==>
  @     others_seen{L}(o, n) == others_seen{M}(q, n);
  @ }
  @ logic value info_seen{L}(struct pkcs1_private_key_info s) =
  @   s.has_attributes != 0 ? container_with(bytes_seen(s.private_key), bytes_seen(s.attributes))
  @                         : container(bytes_seen(s.private_key));
  @ logic value algorithm_seen{L}(struct pkcs1_algorithm s) =
  @   s.has_parameters != 0 ? algorithm_with(bytes_seen(s.oid), s.tag, bytes_seen(s.parameters))
  @                         : without(bytes_seen(s.oid));
  @ logic value mask_gen_seen{L}(struct pkcs1_mask_gen s) =
  @   s.has_hash != 0 ? mask_gen_with(bytes_seen(s.oid), algorithm_seen(s.hash)) : without(bytes_seen(s.oid));
  @ logic value pss_seen{L}(struct pkcs1_pss_params s) =
  @   pss_params(algorithm_seen(s.hash), mask_gen_seen(s.mask_gen), s.salt_len, s.trailer_field);
  @ logic value oaep_seen{L}(struct pkcs1_oaep_params s) =
  @   oaep_params(algorithm_seen(s.hash), mask_gen_seen(s.mask_gen), algorithm_seen(s.p_source)); */

/* ---- What is read and written: functions of which nothing else is known ---- */
/*@ axiomatic Proved {
  @   logic integer status_of(integer kind, octets encoding);
  @   logic struct pkcs1_public_key public_key_of(integer kind, uint8_t *der, octets encoding);
  @   logic struct pkcs1_private_key private_key_of(integer kind, uint8_t *der, octets encoding);
  @   logic struct pkcs1_private_key_info info_of(integer kind, uint8_t *der, octets encoding);
  @   logic struct pkcs1_pss_params pss_of(integer kind, uint8_t *der, octets encoding);
  @   logic struct pkcs1_oaep_params oaep_of(integer kind, uint8_t *der, octets encoding);
  @   // Where the other primes of a key are, whether octets encode such a list, how many it has, and which.
  @   logic struct pkcs1_bytes listed_of(integer kind, uint8_t *der, octets encoding);
  @   logic integer count_of(octets listed); predicate lists_primes(octets listed);
  @   logic struct pkcs1_other_prime other_of(uint8_t *listed, octets encodings, integer i);
  @   logic integer bit_len_of(octets number);
  @   logic integer write_status(integer kind, value v, integer room);
  @   logic integer written_len(integer kind, value v); logic integer written_octet(integer kind, value v, integer i);
  @   predicate is_hash(value algorithm, octets oid); predicate uses_hash(value hash, value mask_gen, octets oid);
  @   predicate are_same_hash(value left, value right); predicate are_same_pss(value left, value right);
  @   predicate are_same_oaep(value left, value right); predicate has_label(value p_source);
  @   logic uint8_t *text_of(integer status); logic uint8_t *version_text;
  @ }
  @ // Why a number can't be held, or PKCS1_OK. Then the same of the first one of a key that can't be.
  @ predicate is_fault(integer status) = status == PKCS1_OK || status == PKCS1_LENGTH || status == PKCS1_OVERFLOW;
  @ logic integer fault_of{L}(struct pkcs1_bytes s) =
  @   s.len == 0 ? PKCS1_LENGTH : bit_len_of(bytes_seen(s)) == UINT64_MAX ? PKCS1_OVERFLOW : PKCS1_OK;
  @ logic integer or_fault_of{L}(integer status, struct pkcs1_bytes s) = status != PKCS1_OK ? status : fault_of(s);
  @ logic integer key_fault_of{L}(struct pkcs1_private_key s) =
  @   or_fault_of(or_fault_of(or_fault_of(or_fault_of(or_fault_of(or_fault_of(or_fault_of(fault_of(s.modulus),
  @     s.public_exponent), s.private_exponent), s.prime1), s.prime2), s.exponent1), s.exponent2), s.coefficient);
  @ logic integer prime_fault_of{L}(integer status, struct pkcs1_other_prime s) =
  @   or_fault_of(or_fault_of(or_fault_of(status, s.prime), s.exponent), s.coefficient);
  @ logic integer first_fault_of{L}(struct pkcs1_private_key s, struct pkcs1_other_prime *o, integer n) =
  @   n <= 0 ? key_fault_of(s) : prime_fault_of(first_fault_of(s, o, n - 1), o[n - 1]);
  @ // First comes whether there are as many other primes as the key says.
  @ logic integer whole_fault_of{L}(struct pkcs1_private_key s, struct pkcs1_other_prime *o, integer n) =
  @   s.other_primes != n ? PKCS1_OTHER_PRIMES : first_fault_of(s, o, n);
  @ axiomatic Exact {
  @   // What the clause `exact` of pkcs1_c_private_key_encode says in Rattle of a key that can't be held.
  @   axiom exact{L}: \forall struct pkcs1_private_key s, struct pkcs1_other_prime *o, integer n, room;
  @     whole_fault_of(s, o, n) != PKCS1_OK ==>
  @     write_status(PRIVATE_KEY, with_others(private_key_seen(s), others_seen(o, n)), room) == whole_fault_of(s, o, n);
  @ }
  @ // A string, which a zero ends.
  @ predicate is_text{L}(uint8_t *text) =
  @   \exists integer n; 0 <= n && \valid_read(text + (0 .. n)) && text[n] == 0; */

/* ---- Contracts ----
 * `is` is `ok` for a proved call, and `given` for the call of pkcs1.h. */

#define ENDS terminates \true; exits \false
#define PURE ENDS; assigns \nothing
#define WHEN_OK \result == PKCS1_OK ==>
#define UNLESS_OK \result != PKCS1_OK ==>
#define DER_IN const uint8_t *der, size_t der_len
#define OUT uint8_t *out, size_t room, size_t *len
#define KEY_IN const struct pkcs1_private_key *key, const struct pkcs1_other_prime *others, size_t others_len
#define OTHERS_OUT struct pkcs1_other_prime *others, size_t others_room
#define PUBLIC struct pkcs1_public_key *key
#define PRIVATE struct pkcs1_private_key *key
#define INFO struct pkcs1_private_key_info *info
#define PSS struct pkcs1_pss_params *params
#define OAEP struct pkcs1_oaep_params *params
#define ENCODING \old(octets_of(der, der_len))
/* What is required of a struct that a call fills. */
#define FILLED_ok(name, s) \valid(s) && ok_##name(*s)
#define FILLED_given(name, s) \valid(s)
#define FILLS(kind, s, name)                                                                                           \
    ensures exact: \result == status_of(kind, ENCODING);                                                               \
    ensures ok: WHEN_OK *s == name##_of(kind, der, ENCODING);                                                          \
    ensures in: WHEN_OK name##_in(*s, der, der_len);                                                                   \
    ensures tidy: WHEN_OK tidy_##name(*s);                                                                             \
    ensures ok: WHEN_OK der_len > 0;                                                                                   \
    ensures types: WHEN_OK ok_##name(*s);                                                                              \
    ensures unchanged: UNLESS_OK *s == \old(*s)
#define READS(is, kind, s, name)                                                                                       \
    requires is(der, der_len) && FILLED_##is(name, s) && \separated(s, der + (0 .. der_len - 1));                      \
    ENDS; assigns *s;                                                                                                  \
    FILLS(kind, s, name)
/* Encoders write the value `v`. */
#define WRITES(kind, v)                                                                                                \
    ENDS; assigns out[0 .. room - 1], *len;                                                                            \
    ensures exact: \result == write_status(kind, \old(v), room);                                                       \
    ensures ok: WHEN_OK *len == written_len(kind, \old(v)) && *len <= room &&                                          \
        \forall integer i; 0 <= i < *len ==> out[i] == written_octet(kind, \old(v), i);                                \
    ensures ok: WHEN_OK \forall integer i; *len <= i < room ==> out[i] == \old(out[i]);                                \
    ensures no_room: \result == PKCS1_NO_ROOM ==> *len == written_len(kind, \old(v)) && room < *len;                   \
    ensures unchanged: UNLESS_OK \forall integer i; 0 <= i < room ==> out[i] == \old(out[i]);                          \
    ensures unchanged: UNLESS_OK (\result != PKCS1_NO_ROOM ==> *len == \old(*len))
#define WRITTEN(is, s, name)                                                                                           \
    requires \valid_read(s) && is##_##name(*s) && is##_out(out, room) && \valid(len);                                  \
    requires \separated(s, out + (0 .. room - 1), len) && is##_apart_##name(*s, out, room, len)
#define ENCODES(is, kind, s, name) WRITTEN(is, s, name); WRITES(kind, name##_seen(*s))

/* ---- Public keys ---- */
/*@ READS(ok, PUBLIC_KEY, key, public_key); */ uint32_t pkcs1_c_public_key_decode(DER_IN, PUBLIC);
/*@ READS(given, PUBLIC_KEY, key, public_key); */ uint32_t pkcs1_public_key_decode(DER_IN, PUBLIC);
/*@ ENCODES(ok, PUBLIC_KEY, key, public_key); */ uint32_t pkcs1_c_public_key_encode(const PUBLIC, OUT);
/*@ ENCODES(given, PUBLIC_KEY, key, public_key); */ uint32_t pkcs1_public_key_encode(const PUBLIC, OUT);

/* ---- Private keys ---- */
/* The octets of the other primes, which the proved call lists. */
#define LISTED(kind) \old(bytes_seen(listed_of(kind, der, octets_of(der, der_len))))
#define COUNTS(kind, clause) ensures clause: WHEN_OK key->other_primes == count_of(LISTED(kind))
#define LISTS(kind, clause)                                                                                            \
    COUNTS(kind, clause);                                                                                              \
    ensures clause: WHEN_OK *listed == listed_of(kind, der, ENCODING) && lists_primes(LISTED(kind));                   \
    ensures part: WHEN_OK listed->data != \null && (listed->len == 0 || part_of(*listed, der, der_len));               \
    ensures types: WHEN_OK ok_bytes(*listed);                                                                          \
    ensures unchanged: UNLESS_OK *listed == \old(*listed)
/* The primes that are encoded in `octets`, which are at `list`, are placed, as many as fit. */
#define PLACES(when, list, list_len, octets)                                                                           \
    ensures placed: when \forall integer i; 0 <= i < others_room && i < count_of(octets) ==>                           \
        others[i] == other_of(list, octets, i);                                                                        \
    ensures placed_in: when \forall integer i; 0 <= i < others_room && i < count_of(octets) ==>                        \
        other_in(others[i], list, list_len);                                                                           \
    ensures placed: when                                                                                               \
        \forall integer i; 0 <= i < others_room && count_of(octets) <= i ==> others[i] == \old(others[i])
#define PLACES_OTHERS(kind)                                                                                            \
    COUNTS(kind, ok);                                                                                                  \
    PLACES(WHEN_OK, listed_of(kind, der, ENCODING).data, listed_of(kind, der, ENCODING).len, LISTED(kind));            \
    ensures part: WHEN_OK listed_of(kind, der, ENCODING).len == 0 ||                                                   \
        part_of(listed_of(kind, der, ENCODING), der, der_len);                                                         \
    ensures unchanged: UNLESS_OK \forall integer i; 0 <= i < others_room ==> others[i] == \old(others[i])
/* The key in a container. */
#define FILLS_KEY                                                                                                      \
    ensures key: WHEN_OK *key == private_key_of(PRIVATE_KEY_INFO, der, ENCODING);                                      \
    ensures types: WHEN_OK ok_private_key(*key);                                                                       \
    ensures key_in: WHEN_OK private_key_in(*key, der, der_len);                                                        \
    ensures unchanged: UNLESS_OK *key == \old(*key)
/*@ requires ok(der, der_len) && FILLED_ok(private_key, key) && FILLED_ok(bytes, listed);
  @ requires \separated(key, listed, der + (0 .. der_len - 1)); ENDS; assigns *key, *listed;
  @ FILLS(PRIVATE_KEY, key, private_key); LISTS(PRIVATE_KEY, ok); */
uint32_t pkcs1_c_private_key_decode(DER_IN, PRIVATE, struct pkcs1_bytes *listed);
/*@ requires given(der, der_len) && \valid(key) && \valid(others + (0 .. others_room - 1));
  @ requires \separated(key, others + (0 .. others_room - 1), der + (0 .. der_len - 1));
  @ ENDS; assigns *key, others[0 .. others_room - 1];
  @ FILLS(PRIVATE_KEY, key, private_key); PLACES_OTHERS(PRIVATE_KEY); */
uint32_t pkcs1_private_key_decode(DER_IN, PRIVATE, OTHERS_OUT);
/*@ requires ok(der, der_len) && FILLED_ok(info, info) && FILLED_ok(private_key, key) && FILLED_ok(bytes, listed);
  @ requires \separated(info, key, listed, der + (0 .. der_len - 1)); ENDS; assigns *info, *key, *listed;
  @ FILLS(PRIVATE_KEY_INFO, info, info); FILLS_KEY; LISTS(PRIVATE_KEY_INFO, key); */
uint32_t pkcs1_c_private_key_info_decode(DER_IN, INFO, PRIVATE, struct pkcs1_bytes *listed);
/*@ requires given(der, der_len) && \valid(info) && \valid(key) && \valid(others + (0 .. others_room - 1));
  @ requires \separated(info, key, others + (0 .. others_room - 1), der + (0 .. der_len - 1));
  @ ENDS; assigns *info, *key, others[0 .. others_room - 1];
  @ FILLS(PRIVATE_KEY_INFO, info, info); FILLS_KEY; PLACES_OTHERS(PRIVATE_KEY_INFO); */
uint32_t pkcs1_private_key_info_decode(DER_IN, INFO, PRIVATE, OTHERS_OUT);
/*@ requires ok(listed, listed_len) && \valid(others + (0 .. others_room - 1)) && ok_others(others, others_room);
  @ requires \separated(others + (0 .. others_room - 1), listed + (0 .. listed_len - 1));
  @ ENDS; assigns others[0 .. others_room - 1]; PLACES(lists_primes(\old(octets_of(listed, listed_len))) ==>,
  @   listed, listed_len, \old(octets_of(listed, listed_len))); */
void pkcs1_c_other_primes(const uint8_t *listed, size_t listed_len, OTHERS_OUT);

#define ENCODES_KEY(is, are)                                                                                           \
    WRITTEN(is, key, private_key);                                                                                     \
    requires \valid_read(others + (0 .. others_len - 1)) && are##_others(others, others_len);                          \
    requires \separated(others + (0 .. others_len - 1), out + (0 .. room - 1), len);                                   \
    requires are##_apart_others(others, others_len, out, room, len);                                                   \
    WRITES(PRIVATE_KEY, with_others(private_key_seen(*key), others_seen(others, others_len)))
/*@ ENCODES_KEY(ok, ok); */ uint32_t pkcs1_c_private_key_encode(KEY_IN, OUT);
/*@ ENCODES_KEY(given, given); */ uint32_t pkcs1_private_key_encode(KEY_IN, OUT);
/*@ ENCODES(ok, PRIVATE_KEY_INFO, info, info); */ uint32_t pkcs1_c_private_key_info_encode(const INFO, OUT);
/*@ ENCODES(given, PRIVATE_KEY_INFO, info, info); */ uint32_t pkcs1_private_key_info_encode(const INFO, OUT);

/* ---- Parameters ---- */
/*@ READS(ok, PSS_PARAMS, params, pss); */ uint32_t pkcs1_c_pss_params_decode(DER_IN, PSS);
/*@ READS(ok, PSS_PARAMS_STRICT, params, pss); */ uint32_t pkcs1_c_pss_params_decode_strict(DER_IN, PSS);
/*@ ENCODES(ok, PSS_PARAMS, params, pss); */ uint32_t pkcs1_c_pss_params_encode(const PSS, OUT);
/*@ READS(ok, PSS_ALGORITHM, params, pss); */ uint32_t pkcs1_c_pss_algorithm_decode(DER_IN, PSS);
/*@ READS(ok, PSS_ALGORITHM_STRICT, params, pss); */ uint32_t pkcs1_c_pss_algorithm_decode_strict(DER_IN, PSS);
/*@ ENCODES(ok, PSS_ALGORITHM, params, pss); */ uint32_t pkcs1_c_pss_algorithm_encode(const PSS, OUT);
/*@ READS(given, PSS_PARAMS, params, pss); */ uint32_t pkcs1_pss_params_decode(DER_IN, PSS);
/*@ READS(given, PSS_PARAMS_STRICT, params, pss); */ uint32_t pkcs1_pss_params_decode_strict(DER_IN, PSS);
/*@ ENCODES(given, PSS_PARAMS, params, pss); */ uint32_t pkcs1_pss_params_encode(const PSS, OUT);
/*@ READS(given, PSS_ALGORITHM, params, pss); */ uint32_t pkcs1_pss_algorithm_decode(DER_IN, PSS);
/*@ READS(given, PSS_ALGORITHM_STRICT, params, pss); */ uint32_t pkcs1_pss_algorithm_decode_strict(DER_IN, PSS);
/*@ ENCODES(given, PSS_ALGORITHM, params, pss); */ uint32_t pkcs1_pss_algorithm_encode(const PSS, OUT);
/*@ READS(ok, OAEP_PARAMS, params, oaep); */ uint32_t pkcs1_c_oaep_params_decode(DER_IN, OAEP);
/*@ READS(ok, OAEP_PARAMS_STRICT, params, oaep); */ uint32_t pkcs1_c_oaep_params_decode_strict(DER_IN, OAEP);
/*@ ENCODES(ok, OAEP_PARAMS, params, oaep); */ uint32_t pkcs1_c_oaep_params_encode(const OAEP, OUT);
/*@ READS(ok, OAEP_ALGORITHM, params, oaep); */ uint32_t pkcs1_c_oaep_algorithm_decode(DER_IN, OAEP);
/*@ READS(ok, OAEP_ALGORITHM_STRICT, params, oaep); */ uint32_t pkcs1_c_oaep_algorithm_decode_strict(DER_IN, OAEP);
/*@ ENCODES(ok, OAEP_ALGORITHM, params, oaep); */ uint32_t pkcs1_c_oaep_algorithm_encode(const OAEP, OUT);
/*@ READS(given, OAEP_PARAMS, params, oaep); */ uint32_t pkcs1_oaep_params_decode(DER_IN, OAEP);
/*@ READS(given, OAEP_PARAMS_STRICT, params, oaep); */ uint32_t pkcs1_oaep_params_decode_strict(DER_IN, OAEP);
/*@ ENCODES(given, OAEP_PARAMS, params, oaep); */ uint32_t pkcs1_oaep_params_encode(const OAEP, OUT);
/*@ READS(given, OAEP_ALGORITHM, params, oaep); */ uint32_t pkcs1_oaep_algorithm_decode(DER_IN, OAEP);
/*@ READS(given, OAEP_ALGORITHM_STRICT, params, oaep); */ uint32_t pkcs1_oaep_algorithm_decode_strict(DER_IN, OAEP);
/*@ ENCODES(given, OAEP_ALGORITHM, params, oaep); */ uint32_t pkcs1_oaep_algorithm_encode(const OAEP, OUT);

/* ---- Tests of a value ---- */
#define TELLS(is_so) PURE; ensures tells: is_flag(\result) && (\result == 1 <==> is_so)
/*@ requires \valid_read(algorithm) && ok_algorithm(*algorithm) && \valid_read(oid) && ok_bytes(*oid);
  @ TELLS(is_hash(algorithm_seen(*algorithm), bytes_seen(*oid))); */
bool pkcs1_c_algorithm_is(const struct pkcs1_algorithm *algorithm, const struct pkcs1_bytes *oid);
/*@ requires \valid_read(algorithm) && given_algorithm(*algorithm) && \valid_read(oid) && given_bytes(*oid);
  @ TELLS(is_hash(algorithm_seen(*algorithm), bytes_seen(*oid))); */
bool pkcs1_algorithm_is(const struct pkcs1_algorithm *algorithm, const struct pkcs1_bytes *oid);

/* Of parameters nothing else is looked at. */
#define BOTH const struct pkcs1_algorithm *hash, const struct pkcs1_mask_gen *mask_gen
#define BOTH_USE(hash, mask_gen, oid)                                                                                  \
    requires given_algorithm(hash) && given_mask_gen(mask_gen) && \valid_read(oid) && given_bytes(*oid);               \
    TELLS(uses_hash(algorithm_seen(hash), mask_gen_seen(mask_gen), bytes_seen(*oid)))
/*@ requires \valid_read(hash) && ok_algorithm(*hash) && \valid_read(mask_gen) && ok_mask_gen(*mask_gen);
  @ requires \valid_read(oid) && ok_bytes(*oid);
  @ TELLS(uses_hash(algorithm_seen(*hash), mask_gen_seen(*mask_gen), bytes_seen(*oid))); */
bool pkcs1_c_uses_hash(BOTH, const struct pkcs1_bytes *oid);
/*@ requires \valid_read(params); BOTH_USE(params->hash, params->mask_gen, hash); */
bool pkcs1_pss_is(const PSS, const struct pkcs1_bytes *hash);
/*@ requires \valid_read(params); BOTH_USE(params->hash, params->mask_gen, hash); */
bool pkcs1_oaep_is(const OAEP, const struct pkcs1_bytes *hash);

/* Two structs mean the same, as `so` of their values says. */
#define MEAN_SAME(is, name, so)                                                                                        \
    requires \valid_read(left) && is##_##name(*left);                                                                  \
    requires \valid_read(right) && is##_##name(*right);                                                                \
    TELLS(so(name##_seen(*left), name##_seen(*right)))
#define TWO_ALGORITHMS const struct pkcs1_algorithm *left, const struct pkcs1_algorithm *right
#define TWO_PSS const struct pkcs1_pss_params *left, const struct pkcs1_pss_params *right
#define TWO_OAEP const struct pkcs1_oaep_params *left, const struct pkcs1_oaep_params *right
/*@ MEAN_SAME(ok, algorithm, are_same_hash); */ bool pkcs1_c_algorithm_is_same_hash(TWO_ALGORITHMS);
/*@ MEAN_SAME(given, algorithm, are_same_hash); */ bool pkcs1_algorithm_is_same_hash(TWO_ALGORITHMS);
/*@ MEAN_SAME(ok, pss, are_same_pss); */ bool pkcs1_c_pss_means_same(TWO_PSS);
/*@ MEAN_SAME(given, pss, are_same_pss); */ bool pkcs1_pss_means_same(TWO_PSS);
/*@ MEAN_SAME(ok, oaep, are_same_oaep); */ bool pkcs1_c_oaep_means_same(TWO_OAEP);
/*@ MEAN_SAME(given, oaep, are_same_oaep); */ bool pkcs1_oaep_means_same(TWO_OAEP);

/* The label of the source `of`, which is in `s`. */
#define LABELS(is, s, of)                                                                                              \
    requires \valid_read(s) && is##_algorithm(of) && FILLED_##is(bytes, label) && \separated(label, s);                \
    ENDS; assigns *label;                                                                                              \
    ensures types: is_flag(\result);                                                                                   \
    ensures none: \result == 0 ==> !\old(has_label(algorithm_seen(of)));                                               \
    ensures label: \result == 1 ==> \old(has_label(algorithm_seen(of)));                                               \
    ensures label: \result == 1 ==> (of).has_parameters != 0 && ok_bytes(*label) &&                                    \
        made_bytes(*label, (of).parameters);                                                                           \
    ensures unchanged: \result == 0 ==> *label == \old(*label)
/*@ LABELS(ok, source, *source); */
bool pkcs1_c_oaep_label(const struct pkcs1_algorithm *source, struct pkcs1_bytes *label);
/*@ LABELS(given, params, params->p_source); */ bool pkcs1_oaep_label(const OAEP, struct pkcs1_bytes *label);
/*@ requires \valid_read(left) && given_bytes(*left) && \valid_read(right) && given_bytes(*right);
  @ TELLS(left->len == right->len && \forall integer i; 0 <= i < left->len ==> left->data[i] == right->data[i]); */
bool pkcs1_oid_equal(const struct pkcs1_bytes *left, const struct pkcs1_bytes *right);

/* ---- Numbers and texts ---- */
/*@ requires ok(number, number_len); PURE; ensures bits: \result == bit_len_of(octets_of(number, number_len)); */
uint64_t pkcs1_c_bit_len(const uint8_t *number, size_t number_len);
/*@ requires given_bytes(number); PURE; ensures bits: \result == bit_len_of(bytes_seen(number)); */
uint64_t pkcs1_bit_len(struct pkcs1_bytes number);
#define TEXT(string, wanted) ensures text: string == wanted && is_text(string)
/*@ requires FILLED_ok(bytes, text); ENDS; assigns *text; TEXT(text->data, text_of(status)); */
void pkcs1_c_status_text(uint32_t status, struct pkcs1_bytes *text);
/*@ PURE; TEXT(\result, text_of(status)); */ const char *pkcs1_strerror(uint32_t status);
/*@ requires FILLED_ok(bytes, text); ENDS; assigns *text; TEXT(text->data, version_text); */
void pkcs1_c_version(struct pkcs1_bytes *text);
/*@ PURE; TEXT(\result, version_text); */ const char *pkcs1_version(void);

/* ---- Parameters for a hash function ---- */
/*@ predicate is_hash_with_null{L}(struct pkcs1_algorithm s, struct pkcs1_bytes hash) =
  @   s.oid == hash && s.has_parameters == 1 && s.tag == 0x05 && ok_bytes(s.parameters) && s.parameters.len == 0;
  @ predicate is_mgf1{L}(struct pkcs1_mask_gen s, struct pkcs1_bytes hash) =
  @   s.oid == pkcs1_oid_mgf1 && s.has_hash == 1 && is_hash_with_null(s.hash, hash); */
#define INIT                                                                                                           \
    requires \valid(params) && \valid_read(hash) && \separated(params, hash);                                          \
    requires \separated(params, &pkcs1_oid_mgf1) && \separated(params, &pkcs1_oid_p_specified);                        \
    ENDS; assigns *params;                                                                                             \
    ensures hash: is_hash_with_null(params->hash, \old(*hash));                                                        \
    ensures mask_gen: is_mgf1(params->mask_gen, \old(*hash))
/*@ INIT; ensures salt: params->salt_len == salt_len && params->trailer_field == 1; */
void pkcs1_pss_params_init(PSS, const struct pkcs1_bytes *hash, uint8_t salt_len);
/*@ requires given(label, label_len); INIT;
  @ ensures p_source: params->p_source.oid == pkcs1_oid_p_specified && params->p_source.has_parameters == 1 &&
  @   params->p_source.tag == 0x04;
  @ ensures label: ok_bytes(params->p_source.parameters) && params->p_source.parameters.len == label_len &&
  @   (label_len != 0 ==> params->p_source.parameters.data == label); */
void pkcs1_oaep_params_init(OAEP, const struct pkcs1_bytes *hash, const uint8_t *label, size_t label_len);

/* ---- The helpers of pkcs1.c ---- */
/*@ requires given_bytes(given);
  @ PURE; ensures made: ok_bytes(\result) && made_bytes(\result, given) && bytes_seen(\result) == bytes_seen(given); */
static struct pkcs1_bytes never_null(struct pkcs1_bytes given);
/* A whole struct may stand for its copy. */
#define WHOLE(name)                                                                                                    \
    requires \valid_read(given) && given_##name(*given);                                                               \
    PURE; ensures whole: is_flag(\result) && (\result == 1 ==> ok_##name(*given) && made_##name(*given, *given))
#define COPIES(name)                                                                                                   \
    requires \valid_read(given) && given_##name(*given);                                                               \
    PURE; ensures ok: ok_##name(\result); ensures made: made_##name(\result, *given);                                  \
    ensures seen: name##_seen(\result) == name##_seen(*given)
/*@ WHOLE(private_key); */ static bool is_whole_key(const struct pkcs1_private_key *given);
/*@ COPIES(private_key); */ static struct pkcs1_private_key copy_key(const struct pkcs1_private_key *given);
/*@ WHOLE(algorithm); */ static bool is_whole_algorithm(const struct pkcs1_algorithm *given);
/*@ COPIES(algorithm); */
static struct pkcs1_algorithm copy_algorithm(const struct pkcs1_algorithm *given);
/*@ WHOLE(mask_gen); */ static bool is_whole_mask_gen(const struct pkcs1_mask_gen *given);
/*@ COPIES(mask_gen); */ static struct pkcs1_mask_gen copy_mask_gen(const struct pkcs1_mask_gen *given);
/*@ WHOLE(pss); */ static bool is_whole_pss_params(const struct pkcs1_pss_params *given);
/*@ COPIES(pss); */ static struct pkcs1_pss_params copy_pss_params(const struct pkcs1_pss_params *given);
/*@ WHOLE(oaep); */ static bool is_whole_oaep_params(const struct pkcs1_oaep_params *given);
/*@ COPIES(oaep); */ static struct pkcs1_oaep_params copy_oaep_params(const struct pkcs1_oaep_params *given);
/*@ requires given(der, der_len); ENDS; assigns \result \from der, der_len;
  @ ensures made: ok(\result, der_len) && (der_len != 0 ==> \result == der);
  @ ensures seen: octets_of(\result, der_len) == octets_of(der, der_len); */ static const uint8_t *input(DER_IN);
/*@ requires given_out(out, room); ENDS; assigns \result \from out, room;
  @ ensures made: ok_out(\result, room) && (room != 0 ==> \result == out); */
static uint8_t *output(uint8_t *out, size_t room);
/*@ requires \valid_read(flag); TELLS(*flag != 0); */ static bool is_set(const bool *flag);
/*@ requires \valid_read(flag); TELLS(*flag == 1); */ static bool is_one(const bool *flag);
/*@ PURE; ensures hash: is_hash_with_null(\result, oid); */
static struct pkcs1_algorithm with_null(struct pkcs1_bytes oid);
/*@ PURE; ensures mask_gen: is_mgf1(\result, hash); */ static struct pkcs1_mask_gen mgf1(struct pkcs1_bytes hash);
/*@ requires ok_bytes(listed) && other_primes == count_of(bytes_seen(listed)) && lists_primes(bytes_seen(listed));
  @ requires \valid(others + (0 .. others_room - 1)) &&
  @   \separated(others + (0 .. others_room - 1), listed.data + (0 .. listed.len - 1));
  @ ENDS; assigns others[0 .. others_room - 1]; PLACES(, listed.data, listed.len, \old(bytes_seen(listed))); */
static void put_others(struct pkcs1_bytes listed, size_t other_primes, OTHERS_OUT);
/*@ requires \valid_read(read) && ok_bytes(listed) && read->other_primes == count_of(bytes_seen(listed)) && \valid(key);
  @ requires \valid(others + (0 .. others_room - 1)) && lists_primes(bytes_seen(listed));
  @ requires \separated(read, key, others + (0 .. others_room - 1), listed.data + (0 .. listed.len - 1));
  @ ENDS; assigns *key, others[0 .. others_room - 1]; ensures key: *key == \old(*read);
  @ PLACES(, listed.data, listed.len, \old(bytes_seen(listed))); */
static void put_key(const struct pkcs1_private_key *read, struct pkcs1_bytes listed, PRIVATE, OTHERS_OUT);
/*@ requires \valid_read(others + (0 .. count - 1)); TELLS(has_empty_number(others, count)); */
static bool has_empty(const struct pkcs1_other_prime *others, size_t count);
#define FAULT(is_so) PURE; ensures fault: is_fault(\result) && \result == is_so
/*@ requires given_bytes(number); FAULT(fault_of(number)); */ static uint32_t fault(struct pkcs1_bytes number);
/*@ requires given_bytes(number) && is_fault(status); FAULT(or_fault_of(status, number)); */
static uint32_t or_fault(uint32_t status, struct pkcs1_bytes number);
/*@ requires \valid_read(key) && given_private_key(*key); FAULT(key_fault_of(*key)); */
static uint32_t key_fault(const PRIVATE);
/*@ requires \valid_read(other) && given_other(*other) && is_fault(status); FAULT(prime_fault_of(status, *other)); */
static uint32_t prime_fault(uint32_t status, const struct pkcs1_other_prime *other);
/*@ requires \valid_read(key) && given_private_key(*key) && \valid_read(others + (0 .. count - 1));
  @ requires given_others(others, count); FAULT(first_fault_of(*key, others, count));
  @ ensures empty: has_empty_number(others, count) ==> \result != PKCS1_OK; */
static uint32_t first_fault(const PRIVATE, const struct pkcs1_other_prime *others, size_t count);
/*@ ENCODES_KEY(given, ok); */ static uint32_t write_key(KEY_IN, OUT);
/*@ requires \valid_read(algorithm) && given_algorithm(*algorithm) && \valid_read(oid) && given_bytes(*oid);
  @ TELLS(is_hash(algorithm_seen(*algorithm), bytes_seen(*oid))); */
static bool copied_algorithm_is(const struct pkcs1_algorithm *algorithm, const struct pkcs1_bytes *oid);
/*@ requires \valid_read(hash) && \valid_read(mask_gen); BOTH_USE(*hash, *mask_gen, oid); */
static bool both_copied_use(BOTH, const struct pkcs1_bytes *oid);
/*@ requires \valid_read(hash) && \valid_read(mask_gen); BOTH_USE(*hash, *mask_gen, oid); */
static bool both_use(BOTH, const struct pkcs1_bytes *oid);
/*@ MEAN_SAME(given, algorithm, are_same_hash); */ static bool copied_algorithm_is_same_hash(TWO_ALGORITHMS);
/*@ MEAN_SAME(given, pss, are_same_pss); */ static bool copied_pss_means_same(TWO_PSS);
/*@ MEAN_SAME(given, oaep, are_same_oaep); */ static bool copied_oaep_means_same(TWO_OAEP);
/*@ requires ok_bytes(*label); LABELS(given, source, *source); */
static bool label_of_copied(const struct pkcs1_algorithm *source, struct pkcs1_bytes *label);
/*@ ENCODES(given, PSS_PARAMS, params, pss); */ static uint32_t copied_pss_params_encode(const PSS, OUT);
/*@ ENCODES(given, PSS_ALGORITHM, params, pss); */ static uint32_t copied_pss_algorithm_encode(const PSS, OUT);
/*@ ENCODES(given, OAEP_PARAMS, params, oaep); */ static uint32_t copied_oaep_params_encode(const OAEP, OUT);
/*@ ENCODES(given, OAEP_ALGORITHM, params, oaep); */ static uint32_t copied_oaep_algorithm_encode(const OAEP, OUT);
