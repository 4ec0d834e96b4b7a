// Made of crates/pkcs1/src/private_key/other_prime_info.rt by tools/erase/erase.py, and not to be edited.
//! Other primes of private keys.

use crate::rattle_std::prelude::Vec;
use crate::proved::pkcs1::version::Version;
use crate::proved::der_core::{
    Borrowed, Decode, Encode, EncodeInParts, Encoding, Error, ErrorKind, Record, Result,
    RowOperation, SequenceTag, Tag, TaggedBy, TryClone, read_optional,
};
use crate::rattle_std::alloc::{AllocError, Global};

/// A prime of a private key after the first two (RFC 8017 A.1.2).
///
/// ```text
/// OtherPrimeInfos ::= SEQUENCE SIZE(1..MAX) OF OtherPrimeInfo
/// OtherPrimeInfo ::= SEQUENCE {
///     prime        INTEGER,
///     exponent     INTEGER,
///     coefficient  INTEGER
/// }
/// ```
pub struct OtherPrimeInfo<U> {
    /// The prime.
    pub prime: U,
    /// Its exponent: the private exponent modulo (prime - 1).
    pub exponent: U,
    /// Its coefficient: the inverse of the product of the primes before it, modulo the prime.
    pub coefficient: U,
}

/// The primes of a private key after the first two.
pub type OtherPrimeInfos<U> = Vec<OtherPrimeInfo<U>>;

impl<U> TaggedBy for OtherPrimeInfo<U> {
    type Marker = SequenceTag;
}

impl<U: Encoding> Record for OtherPrimeInfo<U> {
    type Fields = (U, (U, (U, ())));

    fn from_fields(row: (U, (U, (U, ())))) -> OtherPrimeInfo<U> {
        let (prime, (exponent, (coefficient, ()))) = row;
        OtherPrimeInfo {
            prime,
            exponent,
            coefficient,
        }
    }
}

impl<U: TryClone> TryClone for OtherPrimeInfo<U> {
    fn try_clone_in(&self, alloc: Global) -> Result<OtherPrimeInfo<U>> {
        self.try_clone_in(alloc)
    }
}

impl<U: TryClone> OtherPrimeInfo<U> {
    /// The same numbers, or `OutOfMemory`, which never comes if each is always copied.
    pub(crate) fn try_clone_in(&self, alloc: Global) -> Result<OtherPrimeInfo<U>> {
        Ok(OtherPrimeInfo {
            prime: self.prime.try_clone_in(alloc)?,
            exponent: self.exponent.try_clone_in(alloc)?,
            coefficient: self.coefficient.try_clone_in(alloc)?,
        })
    }
}

impl<U: Encode> EncodeInParts for OtherPrimeInfo<U> {
    #[inline(always)]
    fn with_row<O: RowOperation>(&self, operation: &mut O) -> O::Output {
        let coefficient = (Borrowed(&self.coefficient), ());
        operation.apply(&(
            Borrowed(&self.prime),
            (Borrowed(&self.exponent), coefficient),
        ))
    }
}

/// Rejects a list that is there but empty: `Value` of SEQUENCE.
#[inline(always)]
pub(crate) fn require_listed<U>(others: &Option<OtherPrimeInfos<U>>) -> Result<()> {
    match others {
        Some(infos) if infos.is_empty() => {
            Err(Error::new(ErrorKind::Value { tag: Tag::SEQUENCE }))
        }
        _ => Ok(()),
    }
}

/// How many are listed, if there is a list.
fn count_listed<U>(others: &Option<OtherPrimeInfos<U>>) -> Option<usize> {
    match others {
        Some(infos) => Some(infos.len()),
        None => None,
    }
}

/// Rejects other primes that don't agree with the version, of which so many are listed, and bytes behind them: `Value`
/// of INTEGER if there is a list exactly for two primes, `Value` of SEQUENCE if it is empty, else `TrailingData`.
pub(crate) fn require_agreed(version: Version, listed: Option<usize>, rest: &[u8]) -> Result<()> {
    match listed {
        None => {
            if version.is_multi() {
                return Err(Error::new(ErrorKind::Value { tag: Tag::INTEGER }));
            }
            require_end(rest)
        }
        Some(count) => {
            if !version.is_multi() {
                return Err(Error::new(ErrorKind::Value { tag: Tag::INTEGER }));
            }
            if count == 0 {
                return Err(Error::new(ErrorKind::Value { tag: Tag::SEQUENCE }));
            }
            require_end(rest)
        }
    }
}

/// `TrailingData` if bytes are left.
#[inline(always)]
fn require_end(rest: &[u8]) -> Result<()> {
    if !rest.is_empty() {
        return Err(Error::new(ErrorKind::TrailingData));
    }
    Ok(())
}

/// Reads the rest of a key: its other primes, which must agree with the version.
#[inline(always)]
pub(crate) fn read_other_primes<'a, U: Decode<&'a [u8], Global>>(
    memory: Global,
    bytes: &'a [u8],
    version: Version,
) -> Result<Option<OtherPrimeInfos<U>>> {
    if bytes.is_empty() && !version.is_multi() {
        return Ok(None);
    }
    read_list(memory, bytes, version)
}

/// The same of any bytes.
#[inline(never)]
fn read_list<'a, U: Decode<&'a [u8], Global>>(
    memory: Global,
    bytes: &'a [u8],
    version: Version,
) -> Result<Option<OtherPrimeInfos<U>>> {
    let (others, rest) = read_optional::<OtherPrimeInfos<U>, Global>(memory, bytes)?;
    require_agreed(version, count_listed(&others), rest)?;
    Ok(others)
}

/// Copies the other primes.
pub(crate) fn clone_other_primes<U: TryClone>(
    others: &Option<OtherPrimeInfos<U>>,
    alloc: Global,
) -> Result<Option<OtherPrimeInfos<U>>> {
    match others {
        Some(others) => Ok(Some(others.try_clone_in(alloc)?)),
        None => Ok(None),
    }
}
