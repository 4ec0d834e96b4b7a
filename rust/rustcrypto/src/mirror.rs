//! The types of this crate beside those of the proved one that mean the same.

#[cfg(feature = "alloc")]
use crate::keys::OtherPrimeInfos;
use crate::keys::{OtherPrimeInfo, RsaPrivateKey, RsaPublicKey, Version};
use crate::params::{RsaOaepParams, RsaPssParams, TrailerField};
#[cfg(feature = "alloc")]
use der::asn1::{Any, Uint};
use der::asn1::{AnyRef, ObjectIdentifier, UintRef};
use der::{Decode, Encode, Tag, Tagged};
use proved::der::asn1;
use spki::AlgorithmIdentifier;

/// A type beside a proved one.
pub trait Mirror<'a>: Sized {
    /// The proved type.
    type Proved;

    /// What a proved function read, if this type can hold it.
    fn of(proved: &Self::Proved) -> Option<Self>;

    /// What a proved function writes, if it is one of its values.
    fn lent(&'a self) -> Option<Self::Proved>;
}

/// `Mirror` of types, by two expressions each.
macro_rules! mirrors {
    ($($(#[$if:meta])? {$($generics:tt)*} $name:ty, $proved:ty:
        |$read:ident| $of:expr, |$value:ident| $lent:expr;)*) => { $(
        $(#[$if])?
        impl<'a, $($generics)*> Mirror<'a> for $name {
            type Proved = $proved;

            fn of($read: &$proved) -> Option<Self> {
                $of
            }

            fn lent(&'a self) -> Option<$proved> {
                let $value = self;
                $lent
            }
        }
    )* };
}
mirrors! {
    {} UintRef<'a>, proved::UintRef<'a>:
        |read| UintRef::new(read.as_bytes()).ok(), |value| proved::UintRef::new(value.as_bytes()).ok();
    #[cfg(feature = "alloc")]
    {} Uint, proved::UintRef<'a>:
        |read| Uint::new(read.as_bytes()).ok(), |value| proved::UintRef::new(value.as_bytes()).ok();
    {} AnyRef<'a>, asn1::AnyRef<'a>:
        |read| AnyRef::new(tag(read)?, read.value()).ok(), |value| any(value.tag(), value.value());
    #[cfg(feature = "alloc")]
    {} Any, asn1::AnyRef<'a>:
        |read| Any::new(tag(read)?, read.value()).ok(), |value| any(value.tag(), value.value());
    {} ObjectIdentifier, asn1::ObjectIdentifier:
        |read| ObjectIdentifier::from_bytes(read.as_bytes()).ok(),
        |value| asn1::ObjectIdentifier::from_bytes(value.as_bytes()).ok();
    {} u8, u8: |read| Some(*read), |value| Some(*value);
    {} Version, proved::Version:
        |read| Some(if read.is_multi() { Version::Multi } else { Version::TwoPrime }),
        |value| Some(if value.is_multi() { proved::Version::Multi } else { proved::Version::TwoPrime });
    {} TrailerField, proved::TrailerField: |_read| Some(TrailerField::BC), |_value| Some(proved::TrailerField::BC);
    {T: Mirror<'a>} Option<T>, Option<T::Proved>:
        |read| match read {
            Some(read) => T::of(read).map(Some),
            None => Some(None),
        },
        |value| match value {
            Some(value) => value.lent().map(Some),
            None => Some(None),
        };
    #[cfg(feature = "alloc")]
    {U: Mirror<'a>} OtherPrimeInfos<U>, proved::OtherPrimeInfos<U::Proved>:
        |read| read.iter().map(Mirror::of).collect(),
        |value| Some(value.iter().map(Mirror::lent).collect::<Option<alloc::vec::Vec<_>>>()?.into());
    #[cfg(not(feature = "alloc"))]
    {U: Mirror<'a>} [OtherPrimeInfo<U>; 0], proved::OtherPrimeInfos<U::Proved>:
        |_read| None, |_value| None;
}

/// `Mirror` of structs, field by field.
macro_rules! structs {
    ($($name:ident, $($proved:ident)::*: $($field:ident)*;)*) => { $(
        impl<'a, T: Mirror<'a>> Mirror<'a> for $name<T> {
            type Proved = $($proved)::*<T::Proved>;

            fn of(proved: &Self::Proved) -> Option<Self> {
                Some($name { $($field: Mirror::of(&proved.$field)?,)* })
            }

            fn lent(&'a self) -> Option<Self::Proved> {
                Some($($proved)::* { $($field: self.$field.lent()?,)* })
            }
        }
    )* };
}
structs! {
    RsaPublicKey, proved::RsaPublicKey: modulus public_exponent;
    OtherPrimeInfo, proved::OtherPrimeInfo: prime exponent coefficient;
    RsaPrivateKey, proved::RsaPrivateKey: modulus public_exponent private_exponent prime1 prime2 exponent1 exponent2
        coefficient other_prime_infos;
    AlgorithmIdentifier, proved::spki::AlgorithmIdentifier: oid parameters;
    RsaPssParams, proved::RsaPssParams: hash mask_gen salt_len trailer_field;
    RsaOaepParams, proved::RsaOaepParams: hash mask_gen p_source;
}

fn tag(read: &asn1::AnyRef<'_>) -> Option<Tag> {
    Tag::from_der(&[read.tag().octet()]).ok()
}

/// These contents under the tag, if a proved function writes such a tag: one octet.
fn any(tag: Tag, contents: &[u8]) -> Option<asn1::AnyRef<'_>> {
    match *tag.encode_to_slice(&mut [0; 6]).ok()? {
        [octet] => asn1::AnyRef::new(proved::der::Tag::from_octet(octet).ok()?, contents).ok(),
        _ => None,
    }
}
