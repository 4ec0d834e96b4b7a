//! The errors of what proved functions refused: `der` reads it again, and finds the fault.

use crate::keys::{OtherPrimeInfo, RsaPrivateKey, RsaPublicKey, Version};
use crate::params::{RsaOaepParams, RsaPssParams, TrailerField};
use crate::release::{self, length, number};
use core::marker::PhantomData;
use der::asn1::{ContextSpecific, UintRef};
use der::{Decode, DecodeValue, Error, ErrorKind, FixedTag, Header, Length, Reader, Tag};
use spki::{AlgorithmIdentifier, AlgorithmIdentifierRef as Hash};

/// Reads contents as RustCrypto's crate does, for the error alone: it has a kind of `der` and a position.
pub(crate) trait Fault: FixedTag {
    fn fault<'r>(reader: &mut impl Reader<'r>, header: Header) -> der::Result<()>;
}

/// What `Fault` has read of a type: nothing of it is held.
struct Skimmed<T>(PhantomData<T>);

impl<T: Fault> FixedTag for Skimmed<T> {
    const TAG: Tag = T::TAG;
}

impl<'r, T: Fault> DecodeValue<'r> for Skimmed<T> {
    release::error!();

    fn decode_value<R: Reader<'r>>(reader: &mut R, header: Header) -> der::Result<Self> {
        T::fault(reader, header)?;
        Ok(Skimmed(PhantomData))
    }
}

/// The error of what only a proved function refuses.
pub(crate) fn refused<T: FixedTag>() -> Error {
    ErrorKind::Value { tag: T::TAG }.into()
}

/// The error of a whole encoding that a proved function refused.
pub(crate) fn fault<T: Fault>(whole: &[u8]) -> Error {
    Skimmed::<T>::from_der(whole).err().unwrap_or_else(refused::<T>)
}

/// The error if the encoding had begun so many octets later.
pub(crate) fn later(error: Error, by: Length) -> der::Result<Error> {
    let kind = match error.kind() {
        ErrorKind::Incomplete { expected_len, actual_len } => {
            ErrorKind::Incomplete { expected_len: (expected_len + by)?, actual_len: (actual_len + by)? }
        }
        ErrorKind::TrailingData { decoded, remaining } => {
            ErrorKind::TrailingData { decoded: (decoded + by)?, remaining }
        }
        kind => kind,
    };
    Ok(match error.position() {
        Some(position) => kind.at((position + by)?),
        None => kind.into(),
    })
}

/// INTEGERs of one octet, each with its numbers.
macro_rules! integers {
    ($($name:ident, $numbers:expr;)*) => { $(
        impl Fault for $name {
            fn fault<'r>(reader: &mut impl Reader<'r>, header: Header) -> der::Result<()> {
                let number = u8::decode_value(reader, header)?;
                if $numbers.contains(&number) { Ok(()) } else { Err(release::value_error(reader, Self::TAG)) }
            }
        }
    )* };
}
integers! {
    Version, [0, 1];
    TrailerField, [1];
}

macro_rules! explicit {
    ($contents:ident, $($number:literal $field:ty),*) => {{
        $(ContextSpecific::<$field>::decode_explicit($contents, number($number))?;)*
        Ok(())
    }};
}
macro_rules! sequences {
    ($($name:ident, $contents:ident => $fault:expr;)*) => { $(
        impl<T> Fault for $name<T> where $name<T>: FixedTag {
            fn fault<'r>(reader: &mut impl Reader<'r>, header: Header) -> der::Result<()> {
                reader.read_nested(length(&header), |$contents| $fault)
            }
        }
    )* };
}
type MaskGen<'r> = AlgorithmIdentifier<Hash<'r>>;
sequences! {
    RsaPublicKey, contents => numbers(contents, 2);
    OtherPrimeInfo, contents => numbers(contents, 3);
    RsaPrivateKey, contents => private_key(contents);
    RsaPssParams, contents => explicit!(contents, 0 Hash<'_>, 1 MaskGen<'_>, 2 u8, 3 TrailerField);
    RsaOaepParams, contents => explicit!(contents, 0 Hash<'_>, 1 MaskGen<'_>, 2 Hash<'_>);
}

fn numbers<'r>(contents: &mut impl Reader<'r>, count: usize) -> der::Result<()> {
    (0..count).try_for_each(|_| contents.decode::<UintRef<'r>>().map(|_| ()))
}

fn private_key<'r>(contents: &mut impl Reader<'r>) -> der::Result<()> {
    let version = Version::decode(contents)?;
    numbers(contents, 8)?;
    let others = contents.decode::<Option<Others>>()?;
    let wrong = match others {
        _ if version.is_multi() != others.is_some() => Tag::Integer,
        Some(Others { empty: true }) if release::REFUSES_EMPTY => Tag::Sequence,
        _ => return Ok(()),
    };
    Err(contents.error(ErrorKind::Value { tag: wrong }))
}

/// A list of other primes, of which no number is held. Without the feature `alloc` none is read.
struct Others {
    empty: bool,
}

impl FixedTag for Others {
    const TAG: Tag = Tag::Sequence;
}

impl<'a> DecodeValue<'a> for Others {
    release::error!();

    fn decode_value<R: Reader<'a>>(reader: &mut R, header: Header) -> der::Result<Self> {
        if cfg!(not(feature = "alloc")) {
            return Err(reader.error(ErrorKind::Value { tag: Tag::Integer }));
        }
        reader.read_nested(length(&header), |list| {
            let empty = list.is_finished();
            while !list.is_finished() {
                list.sequence(|prime| numbers(prime, 3))?;
            }
            Ok(Others { empty })
        })
    }
}
