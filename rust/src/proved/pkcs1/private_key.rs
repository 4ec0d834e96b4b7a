// Made of crates/pkcs1/src/private_key.rt by tools/erase/erase.py, and not to be edited.
//! RSA private keys.

mod der;
pub(crate) mod other_prime_info;
mod written;

use crate::proved::pkcs1::key_numbers::{KeyFront, key_of};
use crate::proved::pkcs1::public_key::{RsaPublicKey, RsaPublicKeyRef};
use crate::proved::pkcs1::version::Version;
use crate::proved::der_core::{
    Contents, Counter, Decode, DecodeFront, DecodeValue, Encode, EncodeValue, Encoding, ErrorKind,
    Length, Prepend, Result, SequenceTag, TaggedBy, Uint, UintEncoding, UintRef, Writer,
};
use other_prime_info::{OtherPrimeInfos, read_other_primes, require_listed};
use crate::rattle_std::alloc::{AllocError, Global};
use crate::rattle_std::fmt;

/// An RSA private key (RFC 8017 A.1.2). A U holds a number, an O the other primes, if there are any. No relation
/// between the numbers is checked. The version isn't stored: it is `Multi` exactly if `other_prime_infos` is `Some`.
///
/// ```text
/// RSAPrivateKey ::= SEQUENCE {
///     version          Version,
///     modulus          INTEGER,
///     publicExponent   INTEGER,
///     privateExponent  INTEGER,
///     prime1           INTEGER,
///     prime2           INTEGER,
///     exponent1        INTEGER,
///     exponent2        INTEGER,
///     coefficient      INTEGER,
///     otherPrimeInfos  OtherPrimeInfos OPTIONAL
/// }
/// ```
#[derive(Copy)]
pub struct PrivateKeyOf<U, O> {
    /// The modulus n.
    pub modulus: U,
    /// The public exponent e.
    pub public_exponent: U,
    /// The private exponent d.
    pub private_exponent: U,
    /// The first prime p.
    pub prime1: U,
    /// The second prime q.
    pub prime2: U,
    /// The exponent of the first prime: d modulo p - 1.
    pub exponent1: U,
    /// The exponent of the second prime: d modulo q - 1.
    pub exponent2: U,
    /// The coefficient: the inverse of q modulo p.
    pub coefficient: U,
    /// The primes after the first two.
    pub other_prime_infos: Option<O>,
}

/// A private key with a list of its other primes. A key whose list is there but empty has no encoding: writing it
/// returns `Value` of SEQUENCE.
pub type RsaPrivateKey<U> = PrivateKeyOf<U, OtherPrimeInfos<U>>;

/// A private key that borrows its numbers.
pub type RsaPrivateKeyRef<'a> = RsaPrivateKey<UintRef<'a>>;

/// A private key that owns its numbers.
pub type RsaPrivateKeyOwned = RsaPrivateKey<Uint>;

impl<U, O> PrivateKeyOf<U, O> {
    /// The version: `Multi` exactly if there is a list of other primes.
    #[must_use]
    pub fn version(&self) -> Version {
        if self.other_prime_infos.is_some() {
            Version::Multi
        } else {
            Version::TwoPrime
        }
    }
}

impl<U: UintEncoding> RsaPrivateKey<U> {
    /// The public key: the modulus and the public exponent.
    #[must_use]
    pub fn public_key(&self) -> RsaPublicKeyRef<'_> {
        RsaPublicKey {
            modulus: self.modulus.as_uint_ref(),
            public_exponent: self.public_exponent.as_uint_ref(),
        }
    }
}

impl<'a, U: UintEncoding> From<&'a RsaPrivateKey<U>> for RsaPublicKey<UintRef<'a>> {
    fn from(key: &'a RsaPrivateKey<U>) -> RsaPublicKey<UintRef<'a>> {
        key.public_key()
    }
}

impl<U: Encoding> Contents for RsaPrivateKey<U> {}

impl<U, O> TaggedBy for PrivateKeyOf<U, O> {
    type Marker = SequenceTag;
}

impl<'a, U: Decode<&'a [u8], Global>> DecodeValue<&'a [u8], Global> for RsaPrivateKey<U> {
    #[inline(always)]
    fn read_value(memory: Global, contents: &'a [u8]) -> Result<RsaPrivateKey<U>> {
        let (front, behind) = KeyFront::<U>::read_first(memory, contents)?;
        let (version, numbers) = front;
        let others = read_other_primes(memory, behind, version)?;
        Ok(key_of(numbers, others))
    }
}

impl<U: Encode> EncodeValue for RsaPrivateKey<U> {
    /// As of `EncodeValue`. An empty list of other primes is `Value` of SEQUENCE. Any other tag of `Value` is one that
    /// the type of the numbers names; `UintRef` and `Uint` name none.
    #[inline(always)]
    fn check_value(&self) -> Result<()> {
        require_listed(&self.other_prime_infos)?;
        self.row().check_value()
    }

    #[inline(always)]
    fn prepend_value<W: Prepend>(&self, writer: &mut W) {
        self.row().prepend_value(writer);
    }

    fn append_value<W: Writer>(&self, writer: &mut W) -> Result<()> {
        self.row().append_value(writer)
    }

    /// As of `EncodeValue`. `Value` is as of `check_value`.
    fn value_len(&self) -> Result<Length> {
        self.check_value()?;
        let mut counter = Counter::new();
        self.prepend_value(&mut counter);
        counter.length()
    }

    /// As of `EncodeValue`. `Value` is as of `check_value`.
    fn encode_value<W: Writer>(&self, writer: &mut W) -> Result<()> {
        self.value_len()?;
        self.append_value(writer)
    }
}

impl<U: fmt::Debug, O> PrivateKeyOf<U, O> {
    /// Prints the name, the version, the modulus and the public exponent, but nothing secret.
    pub(crate) fn print(
        &self,
        name: &str,
        f: &mut fmt::Formatter<'_>,
    ) -> fmt::Result {
        f.debug_struct(name)
            .field("version", &self.version())
            .field("modulus", &self.modulus)
            .field("public_exponent", &self.public_exponent)
            .finish_non_exhaustive()
    }
}

impl<U: fmt::Debug> fmt::Debug for RsaPrivateKey<U> {
    /// Prints the version, the modulus and the public exponent, but nothing secret.
    fn fmt(&self, f: &mut fmt::Formatter<'_>) -> fmt::Result {
        self.print("RsaPrivateKey", f)
    }
}
