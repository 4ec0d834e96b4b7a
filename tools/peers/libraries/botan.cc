// Botan 2: the constructors of RSA_PublicKey and RSA_PrivateKey, and PKCS8::load_key. PSS parameters: with BER_Decoder,
// as its x509_obj.cpp reads them in a private function, with the checks there.
#include "peers.h"
#include <botan/alg_id.h>
#include <botan/ber_dec.h>
#include <botan/data_src.h>
#include <botan/der_enc.h>
#include <botan/oids.h>
#include <botan/pkcs8.h>
#include <botan/rsa.h>
#include <cstring>
using namespace Botan;

template <class Octets> static int put(const Octets &octets, uint8_t *to, size_t room, size_t *len) {
    if (octets.size() > room)
        return NOT_WRITTEN;
    std::memcpy(to, octets.data(), octets.size());
    *len = octets.size();
    return ACCEPTED;
}

static const AlgorithmIdentifier rsa("RSA", AlgorithmIdentifier::USE_NULL_PARAM);

static int public_key(const uint8_t *der, size_t der_len, uint8_t *to, size_t room, size_t *len) try {
    RSA_PublicKey key(rsa, std::vector<uint8_t>(der, der + der_len));
    return to ? put(key.public_key_bits(), to, room, len) : ACCEPTED;
} catch (std::exception &) {
    return REJECTED;
}

static int private_key(const uint8_t *der, size_t der_len, uint8_t *to, size_t room, size_t *len) try {
    RSA_PrivateKey key(rsa, secure_vector<uint8_t>(der, der + der_len));
    return to ? put(key.private_key_bits(), to, room, len) : ACCEPTED;
} catch (std::exception &) {
    return REJECTED;
}

static int pkcs8(const uint8_t *der, size_t der_len, uint8_t *to, size_t room, size_t *len) try {
    DataSource_Memory source(der, der_len);
    std::unique_ptr<Private_Key> key(PKCS8::load_key(source));
    if (!key || key->algo_name() != "RSA" || !source.end_of_data())
        return REJECTED;
    return to ? put(PKCS8::BER_encode(*key), to, room, len) : ACCEPTED;
} catch (std::exception &) {
    return REJECTED;
}

struct Pss {
    AlgorithmIdentifier hash, mask, mask_hash;
    size_t salt, trailer;
};

static const AlgorithmIdentifier sha1("SHA-160", AlgorithmIdentifier::USE_NULL_PARAM);
static const AlgorithmIdentifier mgf1("MGF1", sha1.BER_encode());

static void read_pss(BER_Decoder &from, Pss &value) {
    const ASN1_Tag field = ASN1_Tag(CONTEXT_SPECIFIC | CONSTRUCTED);
    from.start_cons(SEQUENCE)
        .decode_optional(value.hash, ASN1_Tag(0), field, sha1)
        .decode_optional(value.mask, ASN1_Tag(1), field, mgf1)
        .decode_optional(value.salt, ASN1_Tag(2), field, size_t(20))
        .decode_optional(value.trailer, ASN1_Tag(3), field, size_t(1))
        .end_cons();
    from.verify_end();
    BER_Decoder(value.mask.get_parameters()).decode(value.mask_hash);
    if (value.trailer != 1)
        throw Decoding_Error("trailer");
}

static void write_pss(DER_Encoder &to, const Pss &value) {
    to.start_cons(SEQUENCE);
    if (!(value.hash == sha1))
        to.start_cons(ASN1_Tag(0), CONTEXT_SPECIFIC).encode(value.hash).end_cons();
    if (!(value.mask == mgf1))
        to.start_cons(ASN1_Tag(1), CONTEXT_SPECIFIC).encode(value.mask).end_cons();
    if (value.salt != 20)
        to.start_cons(ASN1_Tag(2), CONTEXT_SPECIFIC).encode(value.salt).end_cons();
    to.end_cons();
}

static int pss(const uint8_t *der, size_t der_len, uint8_t *to, size_t room, size_t *len) try {
    BER_Decoder from(der, der_len);
    Pss value;
    read_pss(from, value);
    if (!to)
        return ACCEPTED;
    DER_Encoder made;
    write_pss(made, value);
    return put(made.get_contents(), to, room, len);
} catch (std::exception &) {
    return REJECTED;
}

static int pss_algorithm(const uint8_t *der, size_t der_len, uint8_t *to, size_t room, size_t *len) try {
    static const OID wanted("1.2.840.113549.1.1.10");
    BER_Decoder from(der, der_len);
    AlgorithmIdentifier whole;
    from.decode(whole).verify_end();
    if (!(whole.get_oid() == wanted))
        return REJECTED;
    BER_Decoder inside(whole.get_parameters());
    Pss value;
    read_pss(inside, value);
    if (!to)
        return ACCEPTED;
    DER_Encoder parameters, made;
    write_pss(parameters, value);
    made.encode(AlgorithmIdentifier(wanted, parameters.get_contents_unlocked()));
    return put(made.get_contents(), to, room, len);
} catch (std::exception &) {
    return REJECTED;
}

extern "C" {
extern const struct library botan;
/* By type, in the order of peers.h: the call, and whether it writes too. */
const struct library botan = {"Botan",
                              {public_key, private_key, private_key, pss, pss_algorithm, nullptr, nullptr, pkcs8},
                              {1, 1, 1, 1, 1, 0, 0, 1}};
}
