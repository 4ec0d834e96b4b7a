// What is otherwise in the releases 0.7 of `der` and `spki`, and 0.10 of `pkcs8`: the names of types too.

use der::asn1::UintRef;
use der::{Error, ErrorKind, Header, Length, Reader, Tag, TagNumber};

/// An RSA public key.
pub type RsaPublicKey<'a> = crate::RsaPublicKeyRef<'a>;
/// An RSA private key.
pub type RsaPrivateKey<'a> = crate::RsaPrivateKeyRef<'a>;
/// A prime of a private key after the first two.
pub type OtherPrimeInfo<'a> = crate::keys::OtherPrimeInfo<UintRef<'a>>;
/// The primes of a private key after the first two.
pub type OtherPrimeInfos<'a> = crate::keys::OtherPrimeInfos<UintRef<'a>>;
/// The parameters of RSASSA-PSS.
pub type RsaPssParams<'a> = crate::RsaPssParamsRef<'a>;
/// The parameters of RSAES-OAEP.
pub type RsaOaepParams<'a> = crate::RsaOaepParamsRef<'a>;

/// The error of `DecodeValue`: it has none of its own.
macro_rules! error {
    () => {};
}
pub(crate) use error;

pub(crate) fn length(header: &Header) -> Length {
    header.length
}

/// Whether RustCrypto's crate refuses an empty list of other primes.
pub(crate) const REFUSES_EMPTY: bool = false;

/// The error of a number that is none of its type's.
pub(crate) fn value_error<'r>(_: &mut impl Reader<'r>, tag: Tag) -> Error {
    ErrorKind::Value { tag }.into()
}

/// The cause of an error: none is named.
pub(crate) fn source(_: &Error) -> Option<&(dyn core::error::Error + 'static)> {
    None
}

pub(crate) fn number(number: u8) -> TagNumber {
    TagNumber::new(number)
}

#[cfg(feature = "pkcs8")]
pub(crate) use pkcs8::PrivateKeyInfo;

#[cfg(feature = "pkcs8")]
pub(crate) const MALFORMED: pkcs8::Error = pkcs8::Error::KeyMalformed;
