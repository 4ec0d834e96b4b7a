//! DER: reading and writing of whole encodings, and documents.

use crate::proved::{der_core as proved, spki_core::AnyRef};
#[cfg(feature = "alloc")]
use crate::rattle_std::{alloc::Global, prelude::Vec};

pub use crate::contents::DecodeContents;
#[cfg(feature = "alloc")]
pub use crate::documents::{Document, DocumentOf, Open, Secret, SecretDocument};
pub use proved::{Error, ErrorKind, Length, Result, Tag, TagNumber};

/// The types of ASN.1.
pub mod asn1 {
    pub use crate::identifier::{ObjectIdentifier, ObjectIdentifierRef};
    pub use crate::list::{Item, SequenceOf, SequenceOfItems};
    pub use crate::part::OpaqueSet;
    pub use crate::proved::der_core::{BitString, BitStringRef, InRange, Null, OctetStringRef, Uint, UintRef};
    pub use crate::proved::spki_core::AnyRef;
    pub use crate::values::Any;
}

/// Object identifiers, and types that name one.
pub mod oid {
    pub use crate::identifier::{AssociatedOid, ObjectIdentifier, ObjectIdentifierRef};
}

/// A type that is read from its encoding. [`sequence!`](crate::sequence) makes types of one's own. By hand one may be
/// made of calls of others', such as SubjectPublicKeyInfo:
///
/// ```
/// use pkcs1_proved::der::{Decode, ErrorKind, Result, Tag, asn1::AnyRef};
/// use pkcs1_proved::{ALGORITHM_ID, RsaPublicKeyRef, spki::AlgorithmIdentifierRef};
///
/// struct Subject<'a>(RsaPublicKeyRef<'a>);
///
/// impl<'a> Decode<'a> for Subject<'a> {
///     fn from_der(bytes: &'a [u8]) -> Result<Subject<'a>> {
///         let info = AnyRef::from_der(bytes)?;
///         let (algorithm, rest) = AlgorithmIdentifierRef::from_der_partial(info.value())?;
///         let bits = AnyRef::from_der(rest)?;
///         match (info.tag(), bits.tag(), bits.value()) {
///             (Tag::SEQUENCE, Tag::BIT_STRING, [0, key @ ..]) if algorithm == ALGORITHM_ID => {
///                 Ok(Subject(RsaPublicKeyRef::from_der(key)?))
///             }
///             (_, tag, _) => Err(ErrorKind::Value { tag }.into()),
///         }
///     }
/// }
/// ```
pub trait Decode<'a>: Sized {
    /// Reads the whole slice.
    /// # Errors
    /// The slice isn't one whole encoding of such a value, or there is no memory for the value.
    fn from_der(bytes: &'a [u8]) -> Result<Self>;

    /// Reads the encoding in front, of any tag, by `from_der`, and returns what follows it too.
    /// # Errors
    /// The slice begins with no encoding, or as of `from_der`.
    fn from_der_partial(bytes: &'a [u8]) -> Result<(Self, &'a [u8])> {
        let (_, behind) = proved::read_front::<AnyRef<'_>, _>(proved::NoMemory, bytes)?;
        let (front, behind) = bytes.split_at(bytes.len() - behind.len());
        Ok((Self::from_der(front)?, behind))
    }
}

/// A type that is written as its encoding.
pub trait Encode {
    /// How many octets the encoding has.
    /// # Errors
    /// The value has no encoding of at most `Length::MAX` octets.
    fn encoded_len(&self) -> Result<Length>;

    /// Writes the encoding to the front of the slice, and returns that part. On an error the slice is as it was.
    /// # Errors
    /// As `encoded_len`, and `NoRoom` if the slice is too short.
    fn encode_to_slice<'o>(&self, out: &'o mut [u8]) -> Result<&'o [u8]>;

    /// Returns the encoding.
    /// # Errors
    /// As `encoded_len`, and `OutOfMemory`.
    #[cfg(feature = "alloc")]
    fn to_der(&self) -> Result<alloc::vec::Vec<u8>> {
        let length = self.encoded_len()?.to_usize();
        let mut encoding = Vec::repeated(Global, 0, length)?;
        self.encode_to_slice(encoding.as_mut_slice())?;
        Ok(encoding.into())
    }
}

/// The encoding of a message, whose length is told once.
#[cfg(feature = "alloc")]
pub(crate) fn to_der<T: proved::Encode>(message: &T) -> Result<alloc::vec::Vec<u8>> {
    let length = message.encoded_len()?.to_usize();
    let mut encoding = Vec::repeated(Global, 0, length)?;
    message.prepend(&mut proved::BackWriter::new(encoding.as_mut_slice()));
    Ok(encoding.into())
}

/// `Clone` of a type with `try_clone`.
macro_rules! cloned {
    ($({$($generics:tt)*} $name:ty;)*) => { $(
        impl<$($generics)*> Clone for $name {
            /// # Panics
            /// There is no memory: see `try_clone`.
            fn clone(&self) -> $name {
                self.try_clone().expect("no memory was found")
            }
        }
    )* };
}
pub(crate) use cloned;

/// `Decode` of a type, or the trait that stands in front, with its call.
macro_rules! decoded {
    ($trait:ident::$call:ident: $({$($generics:tt)*} $name:ty, $bytes:ident => $read:expr;)*) => { $(
        impl<'a, $($generics)*> $crate::der::$trait<'a> for $name {
            #[inline]
            fn $call($bytes: &'a [u8]) -> $crate::der::Result<$name> {
                $read
            }
        }
    )* };
    ($($types:tt)*) => {
        $crate::der::decoded! { Decode::from_der: $($types)* }
    };
}
pub(crate) use decoded;

/// `TryFrom` of a whole slice, for types with `Decode`.
macro_rules! from_slices {
    ($($name:ty;)*) => { $(
        impl<'a> TryFrom<&'a [u8]> for $name {
            type Error = $crate::Error;

            /// Reads the whole slice.
            #[inline]
            fn try_from(bytes: &'a [u8]) -> $crate::Result<$name> {
                Ok($crate::der::Decode::from_der(bytes)?)
            }
        }
    )* };
}
pub(crate) use from_slices;

/// `Encode` of a type, by the value of a proved type that has the same encoding.
macro_rules! encoded {
    ($({$($generics:tt)*} $name:ty, $value:ident => $message:expr;)*) => { $(
        impl<$($generics)*> $crate::der::Encode for $name {
            fn encoded_len(&self) -> $crate::der::Result<$crate::der::Length> {
                let $value = self;
                $crate::proved::der_core::Encode::encoded_len(&$message)
            }

            #[inline]
            fn encode_to_slice<'o>(&self, out: &'o mut [u8]) -> $crate::der::Result<&'o [u8]> {
                let $value = self;
                $crate::proved::der_core::Encode::encode_to_slice(&$message, out)
            }

            #[cfg(feature = "alloc")]
            fn to_der(&self) -> $crate::der::Result<alloc::vec::Vec<u8>> {
                let $value = self;
                $crate::der::to_der(&$message)
            }
        }
    )* };
}
pub(crate) use encoded;
