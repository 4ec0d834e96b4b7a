// Made of crates/pkcs1/src/viewed_key.rt by tools/erase/erase.py, and not to be edited.
//! The numbers of a private key over the input, and where its other primes lie: what `RsaPrivateKeyView` reads.

use crate::proved::pkcs1::key_numbers::{KeyFront, key_of};
use crate::proved::pkcs1::other_primes::OtherPrimes;
use crate::proved::pkcs1::private_key::PrivateKeyOf;
use crate::proved::pkcs1::private_key::other_prime_info::require_agreed;
use crate::proved::pkcs1::version::Version;
use crate::proved::der_core::{Contents, DecodeFront, DecodeValue, NoMemory, Result, UintRef, read_optional};

/// A private key that borrows the input, for its other primes too.
pub(crate) type ViewedKey<'a> = PrivateKeyOf<UintRef<'a>, OtherPrimes<'a>>;

/// How many are listed, if there is a list.
fn count_listed(others: &Option<OtherPrimes<'_>>) -> Option<usize> {
    match others {
        Some(primes) => Some(primes.remaining()),
        None => None,
    }
}

/// Reads the rest of a key: its other primes, which must agree with the version.
#[inline(always)]
fn read_listed<'a>(bytes: &'a [u8], version: Version) -> Result<Option<OtherPrimes<'a>>> {
    if bytes.is_empty() && !version.is_multi() {
        return Ok(None);
    }
    read_list(bytes, version)
}

/// The same of any bytes.
#[inline(never)]
fn read_list<'a>(bytes: &'a [u8], version: Version) -> Result<Option<OtherPrimes<'a>>> {
    let (others, rest) = read_optional::<OtherPrimes<'a>, NoMemory>(NoMemory, bytes)?;
    require_agreed(version, count_listed(&others), rest)?;
    Ok(others)
}

impl Contents for ViewedKey<'_> {}

impl<'a> DecodeValue<&'a [u8], NoMemory> for ViewedKey<'a> {
    #[inline(always)]
    fn read_value(memory: NoMemory, contents: &'a [u8]) -> Result<ViewedKey<'a>> {
        let (front, behind) = KeyFront::<UintRef<'a>>::read_first(memory, contents)?;
        let (version, numbers) = front;
        let others = read_listed(behind, version)?;
        Ok(key_of(numbers, others))
    }
}
