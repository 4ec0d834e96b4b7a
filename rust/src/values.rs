//! Numbers that own their octets, and encodings of any tag.

use crate::der::asn1::{ObjectIdentifier, ObjectIdentifierRef};
use crate::der::{self, Result, Tag, cloned};
use crate::proved::der_core::{self as proved, AsUintRef, Uint, UintRef};
use crate::proved::spki_core::{self, AnyParams, AnyRef};
use crate::rattle_std::alloc::Global;
use core::cmp::Ordering;
use core::hash::{Hash, Hasher};

/// Makes a trait one that only this crate has types for.
pub(crate) mod sealed {
    #[allow(unnameable_types)]
    pub trait Sealed {}
}
use sealed::Sealed;

macro_rules! seal {
    ($($name:ty)*) => { $( impl Sealed for $name {} )* };
}
seal! { UintRef<'_> Uint AnyRef<'_> Any ObjectIdentifier ObjectIdentifierRef<'_> }

impl Uint {
    /// The number with these big-endian bytes, which may have leading zeros.
    /// # Errors
    /// `Length` of INTEGER if there is no byte, `Overflow` if more than `Length::MAX` bytes remain without leading
    /// zeros, else `OutOfMemory`.
    pub fn new(bytes: &[u8]) -> Result<Uint> {
        Uint::new_in(Global, bytes)
    }

    /// How many bits the number has: none, if it is 0.
    #[must_use]
    pub fn bit_len(&self) -> u64 {
        self.as_uint_ref().bit_len()
    }
}

/// What holds an unsigned number: [`UintRef`] or [`Uint`].
pub trait Number: Sealed {
    /// The number, borrowed.
    fn as_number(&self) -> UintRef<'_>;
}

impl Number for UintRef<'_> {
    #[inline]
    fn as_number(&self) -> UintRef<'_> {
        *self
    }
}

impl Number for Uint {
    #[inline]
    fn as_number(&self) -> UintRef<'_> {
        self.as_uint_ref()
    }
}

impl<'a> AnyRef<'a> {
    /// NULL (X.690 8.8), which has no contents octets.
    pub const NULL: AnyRef<'static> = AnyRef::null();

    /// Whether it is NULL.
    #[inline]
    #[must_use]
    pub fn is_null(&self) -> bool {
        self.is_alone(Tag::NULL)
    }

    /// Decodes the contents octets as those of a `T`.
    /// # Errors
    /// `TagUnexpected`, or what reading a `T` returns.
    pub fn decode_as<T: TryFrom<AnyRef<'a>>>(self) -> core::result::Result<T, T::Error> {
        T::try_from(self)
    }
}

/// A tag and contents octets, which are opaque. It owns them.
#[derive(Debug, Eq)]
pub struct Any(pub(crate) spki_core::Any);

impl Any {
    /// A copy of these contents octets under this tag.
    /// # Errors
    /// `Overflow` if there are more than `Length::MAX`, else `OutOfMemory`.
    pub fn new(tag: Tag, contents: &[u8]) -> Result<Any> {
        Ok(Any(spki_core::Any::new_in(Global, tag, contents)?))
    }

    /// The tag, of any class and number.
    #[inline]
    #[must_use]
    pub fn tag(&self) -> Tag {
        self.as_any().tag()
    }

    /// The contents octets.
    #[inline]
    #[must_use]
    pub fn value(&self) -> &[u8] {
        self.as_any().value()
    }
}

/// What holds a tag and contents octets: [`AnyRef`] or [`Any`].
pub trait Held: Sealed {
    /// The tag and contents, borrowed.
    fn as_any(&self) -> AnyRef<'_>;
}

impl Held for AnyRef<'_> {
    #[inline]
    fn as_any(&self) -> AnyRef<'_> {
        readable(*self)
    }
}

impl Held for Any {
    #[inline]
    fn as_any(&self) -> AnyRef<'_> {
        readable(self.0.as_any_ref())
    }
}

/// The same, with no octets only at an address that may be read. The `memcmp` of glibc reads at it on processors with
/// AVX-512, even where it compares none, and a fault takes the time of several calls.
#[inline]
pub(crate) fn readable(any: AnyRef<'_>) -> AnyRef<'_> {
    if any.value().is_empty() { AnyParams::empty(proved::NoMemory, any.tag()) } else { any }
}

cloned! { {} Uint; {} Any; }

impl PartialEq for Any {
    fn eq(&self, other: &Any) -> bool {
        self.as_any() == other.as_any()
    }
}

impl Hash for Any {
    fn hash<H: Hasher>(&self, state: &mut H) {
        self.as_any().hash(state);
    }
}

macro_rules! of_any {
    ($($name:ty)*) => { $(
        impl<'a> TryFrom<AnyRef<'a>> for $name {
            type Error = der::Error;

            fn try_from(any: AnyRef<'a>) -> Result<$name> {
                any.decode_as_in(proved::NoMemory)
            }
        }
    )* };
}
of_any! { UintRef<'a> proved::OctetStringRef<'a> }

/// `Ord` by a key: what `==` compares too.
macro_rules! ordered {
    ($($name:ty, $value:ident => $key:expr;)*) => { $(
        impl Ord for $name {
            fn cmp(&self, other: &Self) -> Ordering {
                let $value = self;
                let here = $key;
                let $value = other;
                here.cmp(&$key)
            }
        }

        impl PartialOrd for $name {
            fn partial_cmp(&self, other: &Self) -> Option<Ordering> {
                Some(self.cmp(other))
            }
        }
    )* };
}
ordered! {
    Tag, tag => tag.octet();
    UintRef<'_>, number => (number.as_bytes().len(), number.as_bytes());
    Uint, number => (number.as_bytes().len(), number.as_bytes());
    proved::OctetStringRef<'_>, octets => octets.as_bytes();
    AnyRef<'_>, any => (any.tag(), any.value());
    Any, any => (any.tag(), any.value());
}
