// Made of crates/pkcs1/src/public_key.rt by tools/erase/erase.py, and not to be edited.
//! RSA public keys. `try_from` reads one. It calls `from_der` of `der_core/src/decode.rt`. `record.rt` and `parts.rt`
//! there read the row of parts that `Record` names. `traits.rt` has the calls for owned keys.

use crate::proved::der_core::{
    AsUintRef, Borrowed, Decode, Encode, EncodeInParts, Encoding, EqualByValue, NoMemory, Record,
    RowOperation, SequenceTag, TaggedBy, TryClone, Uint, UintEncoding, UintRef, write_only,
};
use crate::proved::pkcs1_params::{Error, Result};
use crate::rattle_std::alloc::Global;

/// An RSA public key (RFC 8017 A.1.1). A `U` holds a number: see `RsaPublicKeyRef` and `RsaPublicKeyOwned`. No relation
/// between the numbers is checked.
///
/// ```text
/// RSAPublicKey ::= SEQUENCE {
///     modulus         INTEGER,
///     publicExponent  INTEGER
/// }
/// ```
#[derive(Clone, Copy, Debug, PartialEq, Eq, Hash)]
pub struct RsaPublicKey<U> {
    /// The modulus n.
    pub modulus: U,
    /// The public exponent e.
    pub public_exponent: U,
}

/// A public key that borrows its numbers.
pub type RsaPublicKeyRef<'a> = RsaPublicKey<UintRef<'a>>;

/// A public key that owns its numbers.
pub type RsaPublicKeyOwned = RsaPublicKey<Uint>;

impl<U> TaggedBy for RsaPublicKey<U> {
    type Marker = SequenceTag;
}

impl<U: Encoding> Record for RsaPublicKey<U> {
    type Fields = (U, (U, ()));

    fn from_fields(row: (U, (U, ()))) -> RsaPublicKey<U> {
        let (modulus, (public_exponent, ())) = row;
        RsaPublicKey {
            modulus,
            public_exponent,
        }
    }
}

impl<U: Encode> EncodeInParts for RsaPublicKey<U> {
    #[inline(always)]
    fn with_row<O: RowOperation>(&self, operation: &mut O) -> O::Output {
        let exponent = (Borrowed(&self.public_exponent), ());
        operation.apply(&(Borrowed(&self.modulus), exponent))
    }
}

impl<U: EqualByValue> EqualByValue for RsaPublicKey<U> {}

impl<U: TryClone> TryClone for RsaPublicKey<U> {
    fn try_clone_in(&self, alloc: Global) -> crate::proved::der_core::Result<RsaPublicKey<U>> {
        self.try_clone_in(alloc)
    }
}

impl<U: TryClone> RsaPublicKey<U> {
    /// The same key, or `OutOfMemory`, which never comes if both numbers are always copied.
    pub(crate) fn try_clone_in(&self, alloc: Global) -> crate::proved::der_core::Result<RsaPublicKey<U>> {
        Ok(RsaPublicKey {
            modulus: self.modulus.try_clone_in(alloc)?,
            public_exponent: self.public_exponent.try_clone_in(alloc)?,
        })
    }
}

impl<'a> TryFrom<&'a [u8]> for RsaPublicKey<UintRef<'a>> {
    type Error = Error;

    /// Reads a public key, and allocates nothing. Ok exactly if the whole slice encodes one: then that key. Err: the
    /// first fault of a public key.
    fn try_from(bytes: &'a [u8]) -> Result<RsaPublicKey<UintRef<'a>>> {
        Ok(RsaPublicKey::from_der(NoMemory, bytes)?)
    }
}

impl<U: AsUintRef> RsaPublicKey<U> {
    /// The same key over numbers that it borrows, whatever the type of its numbers.
    pub(crate) fn as_key_ref(&self) -> RsaPublicKeyRef<'_> {
        RsaPublicKey {
            modulus: self.modulus.as_uint_ref(),
            public_exponent: self.public_exponent.as_uint_ref(),
        }
    }
}

impl<U: UintEncoding> RsaPublicKey<U> {
    /// Writes the key's only encoding, which is that of no other key, to the front of a slice, and returns its length.
    /// The bytes behind it stay as they were. After an error all of the slice does. It is `Overflow` exactly if the
    /// encoding is longer than `Length::MAX`, else `NoRoom` exactly if it is longer than the slice.
    pub(crate) fn encode_key(&self, out: &mut [u8]) -> Result<usize> {
        Ok(write_only(&self.as_key_ref(), out)?)
    }
}
