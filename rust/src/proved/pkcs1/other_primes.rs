// Made of crates/pkcs1/src/other_primes.rt by tools/erase/erase.py, and not to be edited.
//! The other primes of a private key, as an iterator over the input.

use crate::proved::pkcs1::private_key::other_prime_info::OtherPrimeInfo;
use crate::proved::der_core::{
    Contents, Decode, DecodeValue, Memory, NoMemory, Result, SequenceTag, TaggedBy, UintRef,
};

/// An iterator over the other primes of a private key, in order. It borrows the input, allocates nothing, and knows how
/// many are left.
#[derive(Clone, Copy)]
pub struct OtherPrimes<'a> {
    bytes: &'a [u8],
    left: usize,
}

/// Reads the other prime in front, an `OtherPrimeInfo`, and returns it with the bytes after it. Err: the first fault. A
/// list of more than `Length::MAX` bytes isn't read.
#[inline(always)]
pub fn first_other_prime<'a>(bytes: &'a [u8]) -> Result<(OtherPrimeInfo<UintRef<'a>>, &'a [u8])> {
    let split = OtherPrimeInfo::read_one(NoMemory, bytes)?;
    Ok(split)
}

/// The same octets, for a contract that says that they are octets.
#[inline(always)]
fn as_octets(bytes: &[u8]) -> &[u8] {
    bytes
}

/// Counts the other primes whose encodings, in a row, are the bytes.
fn count_others(bytes: &[u8]) -> Result<usize> {
    let mut rest = bytes;
    let mut count = 0;
    while !rest.is_empty() {
        let (_other, behind) = first_other_prime(rest)?;
        rest = behind;
        count += 1;
    }
    Ok(count)
}

impl<'a> OtherPrimes<'a> {
    /// An iterator over no primes.
    pub(crate) fn none() -> OtherPrimes<'a> {
        OtherPrimes {
            bytes: crate::rattle_std::NO_OCTETS,
            left: 0,
        }
    }

    /// How many other primes are left.
    #[must_use]
    pub fn remaining(&self) -> usize {
        self.left
    }

    /// The encodings of the primes that are left, one behind the other: a part of the input.
    #[must_use]
    pub fn as_bytes(self) -> &'a [u8] {
        as_octets(self.bytes)
    }
}

impl Contents for OtherPrimes<'_> {}

impl TaggedBy for OtherPrimes<'_> {
    type Marker = SequenceTag;
}

impl<'a, M: Memory> DecodeValue<&'a [u8], M> for OtherPrimes<'a> {
    fn read_value(_memory: M, contents: &'a [u8]) -> Result<OtherPrimes<'a>> {
        let left = count_others(contents)?;
        Ok(OtherPrimes {
            bytes: contents,
            left,
        })
    }
}

impl<'a> Iterator for OtherPrimes<'a> {
    type Item = OtherPrimeInfo<UintRef<'a>>;

    /// The first of the primes that are left, which is left no more. `None` exactly if none is left.
    fn next(&mut self) -> Option<OtherPrimeInfo<UintRef<'a>>> {
        if self.left == 0 {
            return None;
        }
        match first_other_prime(self.bytes) {
            Ok((other, rest)) => {
                *self = OtherPrimes {
                    bytes: rest,
                    left: self.left - 1,
                };
                Some(other)
            }
            Err(_) => None,
        }
    }

    /// The number of primes left, as both bounds.
    fn size_hint(&self) -> (usize, Option<usize>) {
        (self.left, Some(self.left))
    }
}

impl ExactSizeIterator for OtherPrimes<'_> {
    fn len(&self) -> usize {
        self.left
    }
}
