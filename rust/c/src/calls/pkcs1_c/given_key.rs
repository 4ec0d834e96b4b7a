// Made of crates/pkcs1_c/src/given_key.rt by tools/erase/erase.py, and not to be edited.
//! Private keys that the caller passes.

use crate::calls::pkcs1_c::given_primes::GivenPrimes;
use crate::calls::pkcs1_c::numbers::number;
use crate::calls::pkcs1_c::private_key::{OtherPrime, PrivateKey};
use crate::proved::der_core::{Contents, EncodeValue, Prepend, Result, SequenceTag, TaggedBy, UintRef, Writer};
use crate::proved::pkcs1::PrivateKeyOf;

/// A key of the caller's numbers.
pub(crate) struct GivenKey<'a>(PrivateKeyOf<UintRef<'a>, GivenPrimes<'a>>);

impl<'a> GivenKey<'a> {
    /// The key with these numbers, of which `others` has the other primes; or why the first number that can't be held
    /// can't be.
    #[inline(always)]
    pub(crate) fn of(
        key: &PrivateKey<'a>,
        others: &'a [OtherPrime<'a>],
    ) -> crate::proved::pkcs1::Result<GivenKey<'a>> {
        Ok(GivenKey(PrivateKeyOf {
            modulus: number(key.modulus)?,
            public_exponent: number(key.public_exponent)?,
            private_exponent: number(key.private_exponent)?,
            prime1: number(key.prime1)?,
            prime2: number(key.prime2)?,
            exponent1: number(key.exponent1)?,
            exponent2: number(key.exponent2)?,
            coefficient: number(key.coefficient)?,
            other_prime_infos: GivenPrimes::of(others)?,
        }))
    }
}

impl Contents for GivenKey<'_> {}

impl TaggedBy for GivenKey<'_> {
    type Marker = SequenceTag;
}

impl EncodeValue for GivenKey<'_> {
    #[inline(always)]
    fn check_value(&self) -> Result<()> {
        Ok(())
    }

    #[inline(always)]
    fn prepend_value<W: Prepend>(&self, writer: &mut W) {
        self.0.row().prepend_value(writer);
    }

    fn append_value<W: Writer>(&self, writer: &mut W) -> Result<()> {
        self.0.row().append_value(writer)
    }
}
