//! Conversions: of what borrows its octets and what owns them, of keys and documents, and of views and structs.

use crate::algorithm::{AlgorithmIdentifierOwned, AlgorithmIdentifierRef};
use crate::der::asn1::{Any, AnyRef, ObjectIdentifier, ObjectIdentifierRef, OctetStringRef, Uint, UintRef};
use crate::der::{self, Length};
use crate::keys::public_key;
use crate::values::{Held, Number};
#[cfg(feature = "alloc")]
use crate::{
    Error, RsaPrivateKey,
    der::{Document, SecretDocument},
};
use crate::{
    RsaOaepParamsOwned, RsaOaepParamsRef, RsaPrivateKeyOwned, RsaPrivateKeyRef, RsaPrivateKeyView, RsaPssParamsOwned,
    RsaPssParamsRef, RsaPublicKey, RsaPublicKeyOwned, RsaPublicKeyRef,
};
use core::convert::Infallible;

/// `TryFrom` by reference and by value.
macro_rules! made {
    ($doc:literal, $error:ty; $({$($generics:tt)*} $from:ty => $to:ty, $value:ident => $made:expr;)*) => { $(
        impl<$($generics)*> TryFrom<&$from> for $to {
            type Error = $error;

            #[doc = $doc]
            fn try_from($value: &$from) -> Result<$to, $error> {
                Ok($made?)
            }
        }

        impl<$($generics)*> TryFrom<$from> for $to {
            type Error = $error;

            #[doc = $doc]
            fn try_from(value: $from) -> Result<$to, $error> {
                <$to>::try_from(&value)
            }
        }
    )* };
}

/// Both ways between what borrows its octets and what owns them, of which one is copied and the other lent.
macro_rules! both_ways {
    ($($borrowed:ident $owned:ident, $value:ident => $copied:expr, $lent:expr;)*) => { $(
        made! { "Copies the octets.", der::Error; {} $borrowed<'_> => $owned, $value => $copied; }

        impl $owned {
            /// The same value.
            /// # Errors
            /// `OutOfMemory`.
            pub fn try_clone(&self) -> der::Result<$owned> {
                let $value = self;
                $copied
            }
        }

        impl<'a> From<&'a $owned> for $borrowed<'a> {
            fn from($value: &'a $owned) -> $borrowed<'a> {
                let Ok(made) = $lent;
                made
            }
        }
    )* };
}

fn copied_number<U: Number>(number: &U) -> der::Result<Uint> {
    Uint::new(number.as_number().as_bytes())
}

fn copied_key<U: Number>(key: &RsaPublicKey<U>) -> der::Result<RsaPublicKeyOwned> {
    Ok(RsaPublicKey { modulus: copied_number(&key.modulus)?, public_exponent: copied_number(&key.public_exponent)? })
}

fn copied_any<P: Held>(any: &P) -> der::Result<Any> {
    let any = any.as_any();
    Any::new(any.tag(), any.value())
}

fn lent_any<P: Held>(any: &P) -> Result<AnyRef<'_>, Infallible> {
    Ok(any.as_any())
}

both_ways! {
    UintRef Uint, number => copied_number(number), Ok::<_, Infallible>(number.as_number());
    AnyRef Any, any => copied_any(any), lent_any(any);
    AlgorithmIdentifierRef AlgorithmIdentifierOwned, algorithm => algorithm.map(copied_any), algorithm.map(lent_any);
    RsaPublicKeyRef RsaPublicKeyOwned, key => copied_key(key), Ok::<_, Infallible>(public_key(key));
    RsaPssParamsRef RsaPssParamsOwned, params => params.map(copied_any), params.map(lent_any);
    RsaOaepParamsRef RsaOaepParamsOwned, params => params.map(copied_any), params.map(lent_any);
}

made! {
    "Copies the octets.", der::Error;
    {} RsaPrivateKeyRef<'_> => RsaPrivateKeyOwned, key => key.map(copied_number);
}
#[cfg(feature = "alloc")]
made! {
    "Encodes the key.", Error;
    {U: Number} RsaPublicKey<U> => Document, key => Document::written(&public_key(key));
    {U: Number} RsaPrivateKey<U> => SecretDocument, key => SecretDocument::written(&key.written()?);
}

impl<'a> TryFrom<&'a RsaPrivateKeyOwned> for RsaPrivateKeyRef<'a> {
    type Error = der::Error;

    /// `OutOfMemory`, if there are other primes, and no memory for a list of them.
    fn try_from(key: &'a RsaPrivateKeyOwned) -> der::Result<RsaPrivateKeyRef<'a>> {
        key.map(|number| Ok(number.as_number()))
    }
}

impl<'a> TryFrom<RsaPrivateKeyView<'a>> for RsaPrivateKeyRef<'a> {
    type Error = der::Error;

    /// `OutOfMemory`, if there are other primes, and no memory for a list of them.
    fn try_from(view: RsaPrivateKeyView<'a>) -> der::Result<RsaPrivateKeyRef<'a>> {
        RsaPrivateKeyRef::of_view(&view)
    }
}

macro_rules! public_keys {
    ($($private:ty;)*) => { $(
        impl<'a> From<$private> for RsaPublicKeyRef<'a> {
            fn from(key: $private) -> RsaPublicKeyRef<'a> {
                key.public_key()
            }
        }
    )* };
}
public_keys! { &RsaPrivateKeyRef<'a>; RsaPrivateKeyRef<'a>; &'a RsaPrivateKeyOwned; }

macro_rules! octets {
    ($($name:ty)*) => { $(
        impl AsRef<[u8]> for $name {
            fn as_ref(&self) -> &[u8] {
                self.as_bytes()
            }
        }
    )* };
}
octets! { UintRef<'_> Uint OctetStringRef<'_> ObjectIdentifier ObjectIdentifierRef<'_> }

macro_rules! lengths {
    ($($name:ty;)*) => { $(
        impl $name {
            /// How many bytes there are, at least one.
            #[must_use]
            pub fn len(&self) -> Length {
                Length::of(self.as_bytes().len())
            }

            /// Never: the number 0 has one byte.
            #[must_use]
            pub const fn is_empty(&self) -> bool {
                false
            }
        }
    )* };
}
lengths! { UintRef<'_>; Uint; }
