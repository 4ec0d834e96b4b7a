//! Keys. They are read and written by the proved functions.

use crate::{Error, Result};
use core::fmt;
#[cfg(feature = "alloc")]
use der::asn1::Uint;
use der::asn1::{AnyRef, ObjectIdentifier, UintRef};
#[cfg(feature = "alloc")]
use der::referenced::OwnedToRef;
use spki::AlgorithmIdentifierRef;

/// The object identifier of RSA keys, rsaEncryption.
pub const ALGORITHM_OID: ObjectIdentifier = ObjectIdentifier::new_unwrap("1.2.840.113549.1.1.1");

/// The algorithm identifier of RSA keys: rsaEncryption with NULL.
pub const ALGORITHM_ID: AlgorithmIdentifierRef<'static> =
    AlgorithmIdentifierRef { oid: ALGORITHM_OID, parameters: Some(AnyRef::NULL) };

/// The version of a private key (RFC 8017 A.1.2).
#[derive(Clone, Copy, Debug, PartialEq, Eq, PartialOrd, Ord)]
#[repr(u8)]
pub enum Version {
    /// Two primes.
    TwoPrime = 0,
    /// More than two primes.
    Multi = 1,
}

impl Version {
    /// Whether it is that of keys with more than two primes.
    #[must_use]
    pub fn is_multi(self) -> bool {
        self == Version::Multi
    }
}

impl From<Version> for u8 {
    fn from(version: Version) -> u8 {
        version as u8
    }
}

impl TryFrom<u8> for Version {
    type Error = Error;

    fn try_from(number: u8) -> Result<Version> {
        [Version::TwoPrime, Version::Multi].into_iter().find(|version| *version as u8 == number).ok_or(Error::Version)
    }
}

/// An RSA public key (RFC 8017 A.1.1).
#[derive(Clone, Copy, Debug, PartialEq, Eq)]
pub struct RsaPublicKey<U> {
    /// The modulus n.
    pub modulus: U,
    /// The public exponent e.
    pub public_exponent: U,
}

/// A prime of a private key after the first two (RFC 8017 A.1.2).
#[derive(Clone)]
pub struct OtherPrimeInfo<U> {
    /// The prime r.
    pub prime: U,
    /// Its exponent: d modulo r - 1.
    pub exponent: U,
    /// Its coefficient: the inverse modulo r of the product of the primes before it.
    pub coefficient: U,
}

/// The primes of a private key after the first two: a list, or without the feature `alloc` none.
#[cfg(feature = "alloc")]
pub type OtherPrimeInfos<U> = alloc::vec::Vec<OtherPrimeInfo<U>>;
/// The primes of a private key after the first two: a list, or without the feature `alloc` none.
#[cfg(not(feature = "alloc"))]
pub type OtherPrimeInfos<U> = [OtherPrimeInfo<U>; 0];

/// An RSA private key (RFC 8017 A.1.2). No relation between the numbers is checked. A key whose list of other primes is
/// there but empty isn't written.
#[derive(Clone)]
pub struct RsaPrivateKey<U> {
    /// The modulus n.
    pub modulus: U,
    /// The public exponent e.
    pub public_exponent: U,
    /// The private exponent d.
    pub private_exponent: U,
    /// The first prime p.
    pub prime1: U,
    /// The second prime q.
    pub prime2: U,
    /// The exponent of the first prime: d modulo p - 1.
    pub exponent1: U,
    /// The exponent of the second prime: d modulo q - 1.
    pub exponent2: U,
    /// The coefficient: the inverse of q modulo p.
    pub coefficient: U,
    /// The primes after the first two.
    pub other_prime_infos: Option<OtherPrimeInfos<U>>,
}

/// A public key that borrows its numbers.
pub type RsaPublicKeyRef<'a> = RsaPublicKey<UintRef<'a>>;
/// A private key that borrows its numbers.
pub type RsaPrivateKeyRef<'a> = RsaPrivateKey<UintRef<'a>>;
/// A public key that owns its numbers.
#[cfg(feature = "alloc")]
pub type RsaPublicKeyOwned = RsaPublicKey<Uint>;
/// A private key that owns its numbers. They aren't wiped when it is dropped.
#[cfg(feature = "alloc")]
pub type RsaPrivateKeyOwned = RsaPrivateKey<Uint>;

impl<U> RsaPrivateKey<U> {
    /// The version: `Multi` if there are other primes.
    #[must_use]
    pub fn version(&self) -> Version {
        if self.other_prime_infos.is_some() { Version::Multi } else { Version::TwoPrime }
    }
}

impl<U: fmt::Debug> fmt::Debug for RsaPrivateKey<U> {
    /// Prints nothing secret.
    fn fmt(&self, f: &mut fmt::Formatter<'_>) -> fmt::Result {
        f.debug_struct("RsaPrivateKey")
            .field("version", &self.version())
            .field("modulus", &self.modulus)
            .field("public_exponent", &self.public_exponent)
            .finish_non_exhaustive()
    }
}

impl<'a> RsaPrivateKeyRef<'a> {
    /// The public key.
    #[must_use]
    pub fn public_key(&self) -> RsaPublicKeyRef<'a> {
        RsaPublicKey { modulus: self.modulus, public_exponent: self.public_exponent }
    }
}

#[cfg(feature = "alloc")]
impl RsaPrivateKeyOwned {
    /// The public key.
    #[must_use]
    pub fn public_key(&self) -> RsaPublicKeyRef<'_> {
        RsaPublicKey { modulus: self.modulus.owned_to_ref(), public_exponent: self.public_exponent.owned_to_ref() }
    }
}

macro_rules! public_keys {
    ($($(#[$if:meta])? $private:ty;)*) => { $(
        $(#[$if])?
        impl<'a> From<$private> for RsaPublicKeyRef<'a> {
            fn from(key: $private) -> Self {
                key.public_key()
            }
        }
    )* };
}
public_keys! {
    RsaPrivateKeyRef<'a>;
    &RsaPrivateKeyRef<'a>;
    #[cfg(feature = "alloc")]
    &'a RsaPrivateKeyOwned;
}
