//! RSA keys.

use crate::der::asn1::{OctetStringRef, Uint, UintRef};
use crate::der::{self, decoded, encoded, from_slices};
use crate::proved::der_core::read_borrowed;
use crate::proved::pkcs1::{self as proved, OtherPrimeInfo, OtherPrimes, PrivateKeyOf, Version};
use crate::proved::pkcs1::{RsaPrivateKeyView, RsaPublicKey, RsaPublicKeyRef};
use crate::rattle_std::{alloc::Global, prelude::Vec};
use crate::values::Number;
use crate::{Error, Result};
use core::fmt;

/// The primes of a private key after the first two, as a slice. Without the feature `alloc` there are none.
#[derive(Clone, Debug)]
pub struct OtherPrimeInfos<U>(pub(crate) Vec<OtherPrimeInfo<U>>);

impl<U> core::ops::Deref for OtherPrimeInfos<U> {
    type Target = [OtherPrimeInfo<U>];

    fn deref(&self) -> &[OtherPrimeInfo<U>] {
        &self.0
    }
}

impl<'k, U> IntoIterator for &'k OtherPrimeInfos<U> {
    type Item = &'k OtherPrimeInfo<U>;
    type IntoIter = core::slice::Iter<'k, OtherPrimeInfo<U>>;

    fn into_iter(self) -> Self::IntoIter {
        self.iter()
    }
}

#[cfg(feature = "alloc")]
impl<U> From<alloc::vec::Vec<OtherPrimeInfo<U>>> for OtherPrimeInfos<U> {
    fn from(list: alloc::vec::Vec<OtherPrimeInfo<U>>) -> OtherPrimeInfos<U> {
        OtherPrimeInfos(list.into())
    }
}

impl<U> OtherPrimeInfos<U> {
    /// A list of so many primes, or `OutOfMemory`.
    fn listed(
        count: usize,
        primes: impl Iterator<Item = der::Result<OtherPrimeInfo<U>>>,
    ) -> der::Result<OtherPrimeInfos<U>> {
        let mut list = Vec::with_room(Global, count)?;
        for prime in primes {
            list.push(prime?)?;
        }
        Ok(OtherPrimeInfos(list))
    }
}

/// An RSA private key (RFC 8017 A.1.2). A `U` holds a number: see [`RsaPrivateKeyRef`] and [`RsaPrivateKeyOwned`]. No
/// relation between the numbers is checked. A key whose list of other primes is there but empty isn't written.
///
/// ```text
/// RSAPrivateKey ::= SEQUENCE {
///     version          Version,
///     modulus          INTEGER,
///     publicExponent   INTEGER,
///     privateExponent  INTEGER,
///     prime1           INTEGER,
///     prime2           INTEGER,
///     exponent1        INTEGER,
///     exponent2        INTEGER,
///     coefficient      INTEGER,
///     otherPrimeInfos  OtherPrimeInfos OPTIONAL
/// }
/// ```
#[derive(Clone)]
pub struct RsaPrivateKey<U> {
    /// The modulus n.
    pub modulus: U,
    /// The public exponent e.
    pub public_exponent: U,
    /// The private exponent d.
    pub private_exponent: U,
    /// The first prime p.
    pub prime1: U,
    /// The second prime q.
    pub prime2: U,
    /// The exponent of the first prime: d modulo p - 1.
    pub exponent1: U,
    /// The exponent of the second prime: d modulo q - 1.
    pub exponent2: U,
    /// The coefficient: the inverse of q modulo p.
    pub coefficient: U,
    /// The primes after the first two.
    pub other_prime_infos: Option<OtherPrimeInfos<U>>,
}

/// A private key that borrows its numbers.
pub type RsaPrivateKeyRef<'a> = RsaPrivateKey<UintRef<'a>>;

/// A private key that owns its numbers. They aren't wiped when it is dropped.
pub type RsaPrivateKeyOwned = RsaPrivateKey<Uint>;

/// A key of this type with its other primes. A macro gives each number, by its name.
macro_rules! private_key {
    ($key:ident, $number:ident, $others:expr) => {
        $key {
            modulus: $number!(modulus),
            public_exponent: $number!(public_exponent),
            private_exponent: $number!(private_exponent),
            prime1: $number!(prime1),
            prime2: $number!(prime2),
            exponent1: $number!(exponent1),
            exponent2: $number!(exponent2),
            coefficient: $number!(coefficient),
            other_prime_infos: $others,
        }
    };
}
pub(crate) use private_key;

impl<U> RsaPrivateKey<U> {
    /// The version: `Multi` if there are other primes.
    #[must_use]
    pub const fn version(&self) -> Version {
        if self.other_prime_infos.is_some() { Version::Multi } else { Version::TwoPrime }
    }

    /// The key with each number held otherwise. A list of other primes takes memory.
    #[inline]
    pub(crate) fn map<'k, V>(&'k self, held: impl Fn(&'k U) -> der::Result<V>) -> der::Result<RsaPrivateKey<V>> {
        #[rustfmt::skip]
        macro_rules! number { ($name:ident) => { held(&self.$name)? }; }
        let map_other = |other| map_other(other, &held);
        Ok(private_key!(
            RsaPrivateKey,
            number,
            match &self.other_prime_infos {
                Some(others) => Some(OtherPrimeInfos::listed(others.len(), others.iter().map(map_other))?),
                None => None,
            }
        ))
    }
}

/// The prime with each number held otherwise.
fn map_other<'k, U, V>(
    other: &'k OtherPrimeInfo<U>,
    held: impl Fn(&'k U) -> der::Result<V>,
) -> der::Result<OtherPrimeInfo<V>> {
    Ok(OtherPrimeInfo {
        prime: held(&other.prime)?,
        exponent: held(&other.exponent)?,
        coefficient: held(&other.coefficient)?,
    })
}

impl<'a> RsaPrivateKeyRef<'a> {
    /// The public key, over the same octets.
    #[must_use]
    pub const fn public_key(&self) -> RsaPublicKeyRef<'a> {
        RsaPublicKey { modulus: self.modulus, public_exponent: self.public_exponent }
    }

    /// The key of a view, with a list of its other primes.
    #[inline(always)]
    pub(crate) fn of_view(view: &RsaPrivateKeyView<'a>) -> der::Result<RsaPrivateKeyRef<'a>> {
        #[rustfmt::skip]
        macro_rules! number { ($name:ident) => { view.$name() }; }
        let others = view.version().is_multi().then(|| view.other_primes());
        let listed = |others: OtherPrimes<'a>| OtherPrimeInfos::listed(others.remaining(), others.map(Ok));
        Ok(private_key!(RsaPrivateKey, number, others.map(listed).transpose()?))
    }
}

impl<U: Number> RsaPrivateKey<U> {
    /// The key as it is written.
    #[inline]
    pub(crate) fn written(&self) -> der::Result<proved::RsaPrivateKeyRef<'_>> {
        let key = self.map(|number| Ok(number.as_number()))?;
        #[rustfmt::skip]
        macro_rules! number { ($name:ident) => { key.$name }; }
        Ok(private_key!(PrivateKeyOf, number, key.other_prime_infos.map(|others| others.0)))
    }
}

impl RsaPrivateKeyOwned {
    /// The public key, borrowed.
    #[must_use]
    pub fn public_key(&self) -> RsaPublicKeyRef<'_> {
        RsaPublicKey { modulus: self.modulus.as_number(), public_exponent: self.public_exponent.as_number() }
    }

    /// The same key.
    /// # Errors
    /// `OutOfMemory`.
    pub fn try_clone(&self) -> der::Result<RsaPrivateKeyOwned> {
        self.map(Uint::try_clone)
    }
}

impl OtherPrimeInfo<Uint> {
    /// The same numbers.
    /// # Errors
    /// `OutOfMemory`.
    pub fn try_clone(&self) -> der::Result<OtherPrimeInfo<Uint>> {
        map_other(self, Uint::try_clone)
    }
}

impl<U: Number> fmt::Debug for RsaPrivateKey<U> {
    /// Prints the version, the modulus and the public exponent, but nothing secret.
    fn fmt(&self, f: &mut fmt::Formatter<'_>) -> fmt::Result {
        f.debug_struct("RsaPrivateKey")
            .field("version", &self.version())
            .field("modulus", &self.modulus.as_number())
            .field("public_exponent", &self.public_exponent.as_number())
            .finish_non_exhaustive()
    }
}

impl<U> fmt::Debug for OtherPrimeInfo<U> {
    /// Prints nothing secret.
    fn fmt(&self, f: &mut fmt::Formatter<'_>) -> fmt::Result {
        f.debug_struct("OtherPrimeInfo").finish_non_exhaustive()
    }
}

/// What only `Error::Asn1` may hold.
#[inline(always)]
pub(crate) fn asn1<T>(read: Result<T>) -> der::Result<T> {
    read.map_err(|error| match error {
        Error::Asn1(error) => error,
        _ => der::Error::new(der::ErrorKind::Failed),
    })
}

/// The public key as it is written.
#[inline]
pub(crate) fn public_key<U: Number>(key: &RsaPublicKey<U>) -> RsaPublicKeyRef<'_> {
    RsaPublicKey { modulus: key.modulus.as_number(), public_exponent: key.public_exponent.as_number() }
}

decoded! {
    {} OtherPrimeInfo<UintRef<'a>>, bytes => read_borrowed(bytes);
    {} RsaPrivateKey<UintRef<'a>>, bytes => RsaPrivateKey::of_view(&asn1(RsaPrivateKeyView::try_from(bytes))?);
    {} RsaPrivateKey<Uint>, bytes => RsaPrivateKeyRef::from_der(bytes)?.try_into();
    {} RsaPrivateKeyView<'a>, bytes => asn1(RsaPrivateKeyView::try_from(bytes));
    {} RsaPublicKey<UintRef<'a>>, bytes => read_borrowed(bytes);
    {} RsaPublicKey<Uint>, bytes => RsaPublicKeyRef::from_der(bytes)?.try_into();
}
from_slices! { RsaPrivateKey<UintRef<'a>>; RsaPrivateKey<Uint>; RsaPublicKey<Uint>; }
encoded! {
    {} OtherPrimeInfo<UintRef<'_>>, other => *other;
    {U: Number} RsaPrivateKey<U>, key => key.written()?;
    {U: Number} RsaPublicKey<U>, key => public_key(key);
}

impl<'a> TryFrom<OctetStringRef<'a>> for RsaPrivateKeyRef<'a> {
    type Error = Error;

    /// Reads the contents of an OCTET STRING.
    fn try_from(octets: OctetStringRef<'a>) -> Result<RsaPrivateKeyRef<'a>> {
        RsaPrivateKey::try_from(octets.as_bytes())
    }
}
