// Made of crates/pkcs1_params/src/laws.rt by tools/erase/erase.py, and not to be edited.
//! Laws of the encodings of parameters: functions that do nothing, each with a law as its contract.

use crate::proved::pkcs1_params::oaep::RsaOaepParamsOwned;
use crate::proved::pkcs1_params::pss::RsaPssParamsOwned;
use crate::proved::der_core::Decode;
use crate::rattle_std::alloc::Global;

/// The encodings of PSS parameters. Each value has one number k of fields that equal their defaults. Each encoding
/// stands under exactly one mask, which is below 2^k, and each mask has at most one encoding, which is one of the
/// value. The shortest is the one under mask 0, in which no default is written. A value with an encoding has that one,
/// which is no longer. If the one with every field is within the limit, there are exactly 2^k. Two encodings mean the
/// same parameters exactly if the shortest encodings of what they mean are equal.
pub fn lemma_pss_spellings() {}

/// The encodings of OAEP parameters. Each value has one number k of fields that equal their defaults. Each encoding
/// stands under exactly one mask, which is below 2^k, and each mask has at most one encoding, which is one of the
/// value. The shortest is the one under mask 0, in which no default is written. A value with an encoding has that one,
/// which is no longer. If the one with every field is within the limit, there are exactly 2^k. Two encodings mean the
/// same parameters exactly if the shortest encodings of what they mean are equal.
pub fn lemma_oaep_spellings() {}

/// The functions that tell the parameters of whole slices give parameters exactly of the bytes that encode them, and
/// these. Those of strict reading do so of the shortest encoding. Each of their faults is about the bytes. Of an
/// encoding that isn't the shortest it is `Noncanonical` of the tag of the first default that is written.
pub fn lemma_params_decode() {}

/// In each encoding that isn't the shortest a default is written. One is the first, which `lemma_params_decode` names.
pub fn lemma_written_defaults_are_found() {}

/// Reading owned parameters never asks for memory if no algorithm in them has parameters with octets.
pub fn lemma_bare_params_take_no_memory() {}

/// The encodings of algorithm identifiers with parameters. None is empty, or a proper beginning of another, and each
/// means one value. Two mean the same exactly if the shortest encodings of what they mean are equal. Of k default
/// fields there are exactly two to the k, if the one with every field is within the limit. The functions that tell the
/// parameters in them do so as those of `lemma_params_decode`.
pub fn lemma_algorithms() {}

/// No bytes encode identifiers of both algorithms, or an identifier and parameters alone.
pub fn lemma_algorithms_exclude_each_other() {}
