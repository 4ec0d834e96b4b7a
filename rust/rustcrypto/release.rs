// What is otherwise in the releases 0.8 of `der` and `spki`, and 0.11 of `pkcs8`.

pub use crate::keys::{OtherPrimeInfo, OtherPrimeInfos, RsaPrivateKey, RsaPublicKey};
pub use crate::params::{RsaOaepParams, RsaPssParams};
use der::asn1::OctetStringRef;
use der::{Error, ErrorKind, Header, Length, Reader, Tag, TagNumber};

/// The error of `DecodeValue`.
macro_rules! error {
    () => {
        type Error = der::Error;
    };
}
pub(crate) use error;

pub(crate) fn length(header: &Header) -> Length {
    header.length()
}

/// Whether RustCrypto's crate refuses an empty list of other primes.
pub(crate) const REFUSES_EMPTY: bool = true;

/// The error of a number that is none of its type's.
pub(crate) fn value_error<'r>(reader: &mut impl Reader<'r>, tag: Tag) -> Error {
    reader.error(ErrorKind::Value { tag })
}

/// The cause of an error.
pub(crate) fn source(error: &Error) -> Option<&(dyn core::error::Error + 'static)> {
    Some(error)
}

pub(crate) fn number(number: u8) -> TagNumber {
    TagNumber(number.into())
}

impl<'a, U> TryFrom<&'a OctetStringRef> for RsaPrivateKey<U>
where
    RsaPrivateKey<U>: TryFrom<&'a [u8], Error = crate::Error>,
{
    type Error = crate::Error;

    fn try_from(octets: &'a OctetStringRef) -> crate::Result<Self> {
        octets.as_bytes().try_into()
    }
}

#[cfg(feature = "pkcs8")]
pub(crate) use pkcs8::PrivateKeyInfoRef as PrivateKeyInfo;

#[cfg(feature = "pkcs8")]
pub(crate) const MALFORMED: pkcs8::Error = pkcs8::Error::KeyMalformed(pkcs8::KeyError::Invalid);
