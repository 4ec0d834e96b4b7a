// Made of crates/pkcs1/src/laws.rt by tools/erase/erase.py, and not to be edited.
//! Laws of the grammars of keys and parameters: functions that do nothing, each with a law as its contract.

use crate::proved::pkcs1::other_primes::OtherPrimes;
use crate::proved::pkcs1::private_key::RsaPrivateKey;
use crate::proved::pkcs1::public_key::RsaPublicKey;
use crate::proved::pkcs1::view::RsaPrivateKeyView;
use crate::proved::der_core::{Decode, Encoding, Memory, Uint, UintRef};
use crate::proved::pkcs1_params::{Error, RsaOaepParams, RsaPssParams};
use crate::proved::spki_core::{Any, AnyRef};
use crate::rattle_std::alloc::Global;

/// No encoding is empty or a proper prefix of another one of the same type, and each means one value.
pub fn lemma_encodings_are_delimited() {}

/// The functions that tell the keys of whole slices give a key exactly of the bytes that encode one, in the words of
/// the statement, and this one. Each of their faults is about the bytes.
pub fn lemma_keys_decode() {}

/// Reading a key that borrows its numbers never asks for memory if it is a public one, whatever the bytes are, or if the
/// bytes encode a private key of two primes: by `from_der`, and by each other call that reads such a type.
pub fn lemma_borrowed_keys_take_no_memory<M: Memory>() {}

/// A key has at most one encoding.
pub fn lemma_keys_have_one_encoding() {}

/// No bytes encode both a public and a private key, or both a key and parameters.
pub fn lemma_types_exclude_each_other() {}

/// Two encodings of keys mean the same key exactly if the shortest encodings of what they mean are the same bytes.
pub fn lemma_same_keys_have_the_same_encoding() {}

/// The borrowed and the owned form of a type have the encodings of the statement: so a clause of `Decode` or `Encode`
/// at one of these types is about the encodings that the other laws here are about.
pub fn lemma_forms_share_the_grammars() {}

/// Errors are equal exactly if they are the same, with the same kind in `Asn1`.
pub fn lemma_errors_compare_by_value() {}

/// The bytes of a view of a private key encode the key that it holds.
pub fn lemma_views_hold_what_they_encode() {}

/// A clone of a borrowing type means the same as the original.
pub fn lemma_clones_mean_the_same() {}
