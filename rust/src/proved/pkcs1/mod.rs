// Made of crates/pkcs1/src/lib.rt by tools/erase/erase.py, and not to be edited.
//! RSA keys and parameters of PKCS #1 (RFC 8017) in DER.
//!
//! An encoding is one whole DER encoding: tag, length and contents octets. The limit of its length is
//! `der::Length::MAX` bytes.

mod algorithm;
mod faults;
mod key_numbers;
mod laws;
mod other_primes;
mod private_key;
mod public_key;
mod reencode;
mod traits;
mod version;
mod view;
mod viewed_key;

pub use algorithm::{ALGORITHM_OID, algorithm_id, require_rsa_encryption, rsa_encryption_oid};
pub use crate::proved::der_core as der;
pub use crate::proved::der_core::{Uint, UintRef};
pub use faults::{fault_of_private_key, fault_of_public_key};
pub use laws::{
    lemma_borrowed_keys_take_no_memory, lemma_clones_mean_the_same, lemma_encodings_are_delimited,
    lemma_errors_compare_by_value, lemma_forms_share_the_grammars, lemma_keys_decode,
    lemma_keys_have_one_encoding, lemma_same_keys_have_the_same_encoding,
    lemma_types_exclude_each_other, lemma_views_hold_what_they_encode,
};
pub use other_primes::{OtherPrimes, first_other_prime};
pub use crate::proved::pkcs1_params::{
    DefaultSalt, EncodeParams, Error, FromAlgorithm, OaepParamsOf, PSpecified, PssParamsOf, Result,
    RsaOaepParams, RsaOaepParamsOwned, RsaOaepParamsRef, RsaOaepParamsView, RsaPssParams,
    RsaPssParamsOwned, RsaPssParamsRef, RsaPssParamsView, RsaesOaep, RsassaPss, Shortest,
    TrailerField, fault_of_oaep_algorithm, fault_of_oaep_params, fault_of_pss_algorithm,
    fault_of_pss_params, hash_functions, lemma_algorithms, lemma_algorithms_exclude_each_other,
    lemma_bare_params_take_no_memory, lemma_oaep_spellings, lemma_params_decode,
    lemma_pss_spellings, lemma_written_defaults_are_found, rsaes_oaep_oid, rsassa_pss_oid,
};
pub use private_key::other_prime_info::{OtherPrimeInfo, OtherPrimeInfos};
pub use private_key::{PrivateKeyOf, RsaPrivateKey, RsaPrivateKeyOwned, RsaPrivateKeyRef};
pub use public_key::{RsaPublicKey, RsaPublicKeyOwned, RsaPublicKeyRef};
pub use reencode::{reencode_private_key, reencode_public_key};
pub use crate::proved::spki_core as spki;
pub use crate::proved::spki_core::ObjectIdentifier;
pub use traits::{
    DecodeRsaPrivateKey, DecodeRsaPublicKey, EncodeRsaPrivateKey, EncodeRsaPublicKey,
};
pub use version::Version;
pub use view::RsaPrivateKeyView;
