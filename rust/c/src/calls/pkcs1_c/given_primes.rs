// Made of crates/pkcs1_c/src/given_primes.rt by tools/erase/erase.py, and not to be edited.
//! Other primes that the caller passes, written from the caller's array.

use crate::calls::pkcs1_c::numbers::number;
use crate::calls::pkcs1_c::private_key::OtherPrime;
use crate::proved::der_core::{
    Contents, Encode, EncodeValue, Error, ErrorKind, Prepend, Result, SequenceTag, TaggedBy,
    UintRef, Writer,
};
use crate::proved::pkcs1::OtherPrimeInfo;

/// The other primes of the caller's array: at least one, and each number can be held.
#[derive(Clone, Copy)]
pub struct GivenPrimes<'a> {
    others: &'a [OtherPrime<'a>],
}

/// The prime with these numbers.
#[inline(always)]
fn from_c_other_prime<'a>(other: &OtherPrime<'a>) -> crate::proved::pkcs1::Result<OtherPrimeInfo<UintRef<'a>>> {
    Ok(OtherPrimeInfo {
        prime: number(other.prime)?,
        exponent: number(other.exponent)?,
        coefficient: number(other.coefficient)?,
    })
}

/// Writes a prime in front of what was received, or counts it. It does nothing only if another thread has changed the
/// octets.
fn prepend_given<W: Prepend>(other: &OtherPrime<'_>, writer: &mut W) {
    match from_c_other_prime(other) {
        Ok(info) => info.prepend(writer),
        Err(_) => {}
    }
}

/// Appends a prime.
fn append_given<W: Writer>(other: &OtherPrime<'_>, writer: &mut W) -> Result<()> {
    match from_c_other_prime(other) {
        Ok(info) => info.append(writer),
        Err(_) => Err(Error::new(ErrorKind::Failed)), // another thread changed the octets
    }
}

impl<'a> GivenPrimes<'a> {
    /// The primes of the array, or `None` if it is empty; or why the first number that can't be held can't be.
    #[inline(always)]
    pub(crate) fn of(others: &'a [OtherPrime<'a>]) -> crate::proved::pkcs1::Result<Option<GivenPrimes<'a>>> {
        if others.is_empty() {
            return Ok(None);
        }
        for other in others {
            from_c_other_prime(other)?;
        }
        Ok(Some(GivenPrimes { others }))
    }
}

impl Contents for GivenPrimes<'_> {}

impl TaggedBy for GivenPrimes<'_> {
    type Marker = SequenceTag;
}

impl EncodeValue for GivenPrimes<'_> {
    #[inline(always)]
    fn check_value(&self) -> Result<()> {
        Ok(())
    }

    fn prepend_value<W: Prepend>(&self, writer: &mut W) {
        let mut left = self.others.len();
        while left > 0 {
            left -= 1;
            prepend_given(&self.others[left], writer);
        }
    }

    fn append_value<W: Writer>(&self, writer: &mut W) -> Result<()> {
        for other in self.others {
            append_given(other, writer)?;
        }
        Ok(())
    }
}
