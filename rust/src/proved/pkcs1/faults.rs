// Made of crates/pkcs1/src/faults.rt by tools/erase/erase.py, and not to be edited.
//! Why bytes encode no key: the error of reading, as a function of the bytes alone.

use crate::proved::pkcs1::public_key::RsaPublicKeyRef;
use crate::proved::pkcs1::view::RsaPrivateKeyView;
use crate::proved::der_core::ErrorKind;
use crate::proved::pkcs1_params::Error;

/// The kind of the first fault of bytes that don't encode a public key, or `None` if they do. There is exactly one
/// result for each slice, as reading allocates nothing.
pub fn fault_of_public_key(bytes: &[u8]) -> Option<ErrorKind> {
    match RsaPublicKeyRef::try_from(bytes) {
        Ok(_) => None,
        Err(Error::Asn1(error)) => Some(error.kind()),
        Err(_) => unreachable!(),
    }
}

/// The kind of the first fault of bytes that don't encode a private key, or `None` if they do. There is exactly one
/// result for each slice, as reading allocates nothing.
pub fn fault_of_private_key(bytes: &[u8]) -> Option<ErrorKind> {
    match RsaPrivateKeyView::try_from(bytes) {
        Ok(_) => None,
        Err(Error::Asn1(error)) => Some(error.kind()),
        Err(_) => unreachable!(),
    }
}
