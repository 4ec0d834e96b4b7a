//! Object identifiers, and types that name one.

use crate::der::{Error, ErrorKind, Result};
use crate::oid_text;
use crate::proved::spki_core as proved;
use crate::values::sealed::Sealed;
use core::fmt;

/// An object identifier as its contents octets (X.690 8.19), of which there are at most 39.
///
/// ```
/// use pkcs1_proved::der::asn1::ObjectIdentifier;
///
/// const SHA_256: ObjectIdentifier = ObjectIdentifier::new_unwrap("2.16.840.1.101.3.4.2.1");
/// assert_eq!(SHA_256.to_string(), "2.16.840.1.101.3.4.2.1");
/// assert_eq!(SHA_256.as_bytes(), [0x60, 0x86, 0x48, 1, 0x65, 3, 4, 2, 1]);
/// ```
#[derive(Clone, Copy, PartialEq, Eq, PartialOrd, Ord, Hash)]
pub struct ObjectIdentifier {
    octets: [u8; ObjectIdentifier::MAX_SIZE],
    length: u8,
}

impl ObjectIdentifier {
    /// The most contents octets that an identifier may have.
    pub const MAX_SIZE: usize = 39;

    /// The identifier with this text: numbers in decimal digits, with dots between them.
    /// # Errors
    /// `OidMalformed` if the text is none, or the contents have more than 39 octets.
    pub const fn new(text: &str) -> Result<ObjectIdentifier> {
        match oid_text::read(text.as_bytes()) {
            Some((octets, length)) => Ok(ObjectIdentifier { octets, length: length as u8 }),
            None => Err(Error { kind: ErrorKind::OidMalformed }),
        }
    }

    /// As `new`, for a `const`.
    /// # Panics
    /// Where `new` returns an error. In a `const` this is an error of the compiler.
    #[must_use]
    pub const fn new_unwrap(text: &str) -> ObjectIdentifier {
        match ObjectIdentifier::new(text) {
            Ok(oid) => oid,
            Err(_) => panic!("the text is no object identifier of at most 39 octets"),
        }
    }

    /// The identifier with these contents octets.
    /// # Errors
    /// `OidMalformed`.
    pub fn from_bytes(octets: &[u8]) -> Result<ObjectIdentifier> {
        Ok(ObjectIdentifierRef(proved::IdentifierView::from_bytes(octets)?).into())
    }

    /// The contents octets, at least one.
    #[inline]
    #[must_use]
    pub const fn as_bytes(&self) -> &[u8] {
        self.octets.split_at(self.length as usize).0
    }
}

impl core::str::FromStr for ObjectIdentifier {
    type Err = Error;

    fn from_str(text: &str) -> Result<ObjectIdentifier> {
        ObjectIdentifier::new(text)
    }
}

/// An object identifier over the octets that it was read from.
#[derive(Clone, Copy)]
pub struct ObjectIdentifierRef<'a>(pub(crate) proved::IdentifierView<'a>);

impl<'a> ObjectIdentifierRef<'a> {
    /// The contents octets, at least one.
    #[must_use]
    pub fn as_bytes(&self) -> &'a [u8] {
        self.0.as_bytes()
    }
}

impl PartialEq for ObjectIdentifierRef<'_> {
    fn eq(&self, other: &ObjectIdentifierRef<'_>) -> bool {
        self.as_bytes() == other.as_bytes()
    }
}

impl Eq for ObjectIdentifierRef<'_> {}

impl PartialEq<ObjectIdentifier> for ObjectIdentifierRef<'_> {
    fn eq(&self, other: &ObjectIdentifier) -> bool {
        self.as_bytes() == other.as_bytes()
    }
}

impl From<ObjectIdentifierRef<'_>> for ObjectIdentifier {
    fn from(oid: ObjectIdentifierRef<'_>) -> ObjectIdentifier {
        ObjectIdentifier::of_identifier(oid)
    }
}

/// What holds an object identifier: [`ObjectIdentifier`], or [`ObjectIdentifierRef`].
pub trait Identifier: Sealed {
    /// The identifier, borrowed.
    fn as_identifier(&self) -> ObjectIdentifierRef<'_>;
}

/// What an object identifier that is read is held in: `ObjectIdentifier` as a copy, or `ObjectIdentifierRef`.
pub trait OfIdentifier<'a>: Sealed + Sized {
    /// The identifier.
    fn of_identifier(oid: ObjectIdentifierRef<'a>) -> Self;
}

impl Identifier for ObjectIdentifier {
    #[inline]
    fn as_identifier(&self) -> ObjectIdentifierRef<'_> {
        ObjectIdentifierRef(proved::IdentifierView::over(self.as_bytes()))
    }
}

impl OfIdentifier<'_> for ObjectIdentifier {
    /// Nearly all identifiers in keys and parameters have five or nine octets. Copies of a known length take no call.
    #[inline(always)]
    fn of_identifier(oid: ObjectIdentifierRef<'_>) -> ObjectIdentifier {
        match *oid.as_bytes() {
            [a, b, c, d, e, f, g, h, i] => ObjectIdentifier::with_zeros([a, b, c, d, e, f, g, h, i]),
            [a, b, c, d, e] => ObjectIdentifier::with_zeros([a, b, c, d, e]),
            ref octets => ObjectIdentifier::copied(octets),
        }
    }
}

impl ObjectIdentifier {
    #[inline]
    fn with_zeros<const N: usize>(from: [u8; N]) -> ObjectIdentifier {
        let mut octets = [0; ObjectIdentifier::MAX_SIZE];
        octets[..N].copy_from_slice(&from);
        ObjectIdentifier { octets, length: N as u8 }
    }

    #[inline(never)]
    fn copied(from: &[u8]) -> ObjectIdentifier {
        let mut octets = [0; ObjectIdentifier::MAX_SIZE];
        octets[..from.len()].copy_from_slice(from);
        ObjectIdentifier { octets, length: from.len() as u8 }
    }
}

impl Identifier for ObjectIdentifierRef<'_> {
    #[inline]
    fn as_identifier(&self) -> ObjectIdentifierRef<'_> {
        *self
    }
}

impl<'a> OfIdentifier<'a> for ObjectIdentifierRef<'a> {
    #[inline(always)]
    fn of_identifier(oid: ObjectIdentifierRef<'a>) -> ObjectIdentifierRef<'a> {
        oid
    }
}

macro_rules! printed {
    ($($name:ty)*) => { $(
        impl fmt::Display for $name {
            fn fmt(&self, f: &mut fmt::Formatter<'_>) -> fmt::Result {
                oid_text::print(self.as_bytes(), f)
            }
        }

        impl fmt::Debug for $name {
            fn fmt(&self, f: &mut fmt::Formatter<'_>) -> fmt::Result {
                write!(f, "ObjectIdentifier({self})")
            }
        }
    )* };
}
printed! { ObjectIdentifier ObjectIdentifierRef<'_> }

/// A type that names an algorithm, such as a hash function.
pub trait AssociatedOid {
    /// The object identifier of the algorithm.
    const OID: ObjectIdentifier;
}

impl<D: AssociatedOid> proved::AssociatedOid for D {
    const OID: &'static [u8] = const { &<D as AssociatedOid>::OID }.as_bytes();

    #[inline]
    fn octets() -> &'static [u8] {
        <D as proved::AssociatedOid>::OID
    }
}
