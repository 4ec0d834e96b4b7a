// Made of crates/pkcs1/src/key_numbers.rt by tools/erase/erase.py, and not to be edited.
//! The version and the eight numbers of private keys, as a row of parts; copying private keys.

use crate::proved::pkcs1::private_key::other_prime_info::clone_other_primes;
use crate::proved::pkcs1::private_key::{PrivateKeyOf, RsaPrivateKey};
use crate::proved::pkcs1::version::Version;
use crate::proved::der_core::{ErrorKind, Result, TryClone};
use crate::rattle_std::alloc::Global;

/// The eight numbers, in the order of the encoding.
pub(crate) type KeyNumbers<U> = (U, (U, (U, (U, (U, (U, (U, (U, ()))))))));

/// What is in front of the other primes.
pub(crate) type KeyFront<U> = (Version, KeyNumbers<U>);

/// The private key of these numbers and other primes.
#[inline(always)]
pub(crate) fn key_of<U, O>(numbers: KeyNumbers<U>, others: Option<O>) -> PrivateKeyOf<U, O> {
    let (modulus, (public_exponent, (private_exponent, (prime1, (prime2, rest))))) = numbers;
    let (exponent1, (exponent2, (coefficient, ()))) = rest;
    PrivateKeyOf {
        modulus,
        public_exponent,
        private_exponent,
        prime1,
        prime2,
        exponent1,
        exponent2,
        coefficient,
        other_prime_infos: others,
    }
}

/// Copies four numbers.
fn clone_four<U: TryClone>(a: &U, b: &U, c: &U, d: &U, alloc: Global) -> Result<(U, U, U, U)> {
    Ok((
        a.try_clone_in(alloc)?,
        b.try_clone_in(alloc)?,
        c.try_clone_in(alloc)?,
        d.try_clone_in(alloc)?,
    ))
}

impl<U: TryClone> TryClone for RsaPrivateKey<U> {
    fn try_clone_in(&self, alloc: Global) -> Result<RsaPrivateKey<U>> {
        self.try_clone_in(alloc)
    }
}

impl<U: TryClone> RsaPrivateKey<U> {
    /// The same key, or `OutOfMemory`, which never comes if each number is always copied and there are no other primes.
    pub(crate) fn try_clone_in(&self, alloc: Global) -> Result<RsaPrivateKey<U>> {
        let key = self;
        let (modulus, public_exponent, private_exponent, prime1) = clone_four(
            &key.modulus,
            &key.public_exponent,
            &key.private_exponent,
            &key.prime1,
            alloc,
        )?;
        let (prime2, exponent1, exponent2, coefficient) = clone_four(
            &key.prime2,
            &key.exponent1,
            &key.exponent2,
            &key.coefficient,
            alloc,
        )?;
        Ok(RsaPrivateKey {
            modulus,
            public_exponent,
            private_exponent,
            prime1,
            prime2,
            exponent1,
            exponent2,
            coefficient,
            other_prime_infos: clone_other_primes(&key.other_prime_infos, alloc)?,
        })
    }
}
