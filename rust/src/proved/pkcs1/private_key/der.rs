// Made of crates/pkcs1/src/private_key/der.rt by tools/erase/erase.py, and not to be edited.
//! Decoding private keys from whole slices; encoding them into slices.

use super::RsaPrivateKey;
use super::other_prime_info::require_listed;
use crate::proved::der_core::{Decode, Encode, ErrorKind, OctetStringRef, Uint, UintEncoding, UintRef};
use crate::rattle_std::alloc::Global;

impl<U> RsaPrivateKey<U> {
    /// Reads a private key from the octets of an OCTET STRING. Ok only if all of them encode one: then that key. Err:
    /// the first fault of a private key, or `OutOfMemory`, which comes where it may for `decode_key`, or where the
    /// numbers may ask for memory. A key of two primes is always read, if the numbers never ask for it.
    pub fn from_octet_string<'a>(
        alloc: Global,
        octets: OctetStringRef<'a>,
    ) -> crate::proved::pkcs1::Result<RsaPrivateKey<U>>
    where
        U: Decode<&'a [u8], Global>,
    {
        Ok(RsaPrivateKey::from_der(alloc, octets.as_bytes())?)
    }
}

impl<'a> RsaPrivateKey<UintRef<'a>> {
    /// Reads a private key. Ok only if the whole slice encodes one: then that key. Err: the first fault of a private
    /// key, or `OutOfMemory`, which comes only if a SEQUENCE that begins with another prime follows the eight numbers.
    /// So a key of two primes is always read.
    pub fn decode_key(alloc: Global, bytes: &'a [u8]) -> crate::proved::pkcs1::Result<RsaPrivateKey<UintRef<'a>>> {
        Ok(RsaPrivateKey::from_der(alloc, bytes)?) // its numbers are parts of the bytes
    }
}

impl RsaPrivateKey<Uint> {
    /// Reads a private key, whose numbers it copies. Ok only if the whole slice encodes one: then that key. Err: the
    /// first fault of a private key, or `OutOfMemory`, which comes only if the slice begins with a SEQUENCE that begins
    /// with a version and a number.
    pub fn decode_owned_key(alloc: Global, bytes: &[u8]) -> crate::proved::pkcs1::Result<RsaPrivateKey<Uint>> {
        Ok(RsaPrivateKey::from_der(alloc, bytes)?) // its numbers are copies
    }
}

impl<U: Encode + UintEncoding> RsaPrivateKey<U> {
    /// Writes the key's only encoding, which is that of no other key, to the front of a slice, and returns its length.
    /// The bytes behind it stay as they were. After an error all of the slice does. It is `Value` of SEQUENCE exactly
    /// if the list of other primes is there but empty, which is looked at first, `Overflow` exactly if the encoding is
    /// longer than `Length::MAX`, else `NoRoom` exactly if it is longer than the slice.
    pub(crate) fn encode_key(&self, out: &mut [u8]) -> crate::proved::pkcs1::Result<usize> {
        require_listed(&self.other_prime_infos)?;
        Ok(self.encode_into(out)?)
    }
}
