// Made of crates/pkcs1/src/reencode.rt by tools/erase/erase.py, and not to be edited.
//! Keys that are decoded and encoded again.

use crate::proved::pkcs1::private_key::RsaPrivateKeyOwned;
use crate::proved::pkcs1::public_key::RsaPublicKeyOwned;
use crate::proved::pkcs1::traits::{
    DecodeRsaPrivateKey, DecodeRsaPublicKey, EncodeRsaPrivateKey, EncodeRsaPublicKey,
};
use crate::proved::der_core::{Document, SecretDocument};
use crate::proved::pkcs1_params::Result;
use crate::rattle_std::alloc::Global;

/// Reads a public key from the whole slice, and makes its document, which holds the same bytes. Ok only if the slice
/// encodes a key. Err: the first fault of a public key, or `OutOfMemory`, which comes where it may for
/// `from_pkcs1_der`, or if the slice encodes a key.
pub fn reencode_public_key(alloc: Global, bytes: &[u8]) -> Result<Document> {
    RsaPublicKeyOwned::from_pkcs1_der(alloc, bytes)?.to_pkcs1_der(alloc)
}

/// Reads a private key from the whole slice, and makes its document, which holds the same bytes. Ok only if the slice
/// encodes a key. Err: the first fault of a private key, or `OutOfMemory`, which comes where it may for
/// `from_pkcs1_der`, or if the slice encodes a key.
pub fn reencode_private_key(alloc: Global, bytes: &[u8]) -> Result<SecretDocument> {
    RsaPrivateKeyOwned::from_pkcs1_der(alloc, bytes)?.to_pkcs1_der(alloc)
}
