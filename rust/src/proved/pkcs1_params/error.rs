// Made of crates/pkcs1_params/src/error.rt by tools/erase/erase.py, and not to be edited.
//! The error of keys and parameters.

use crate::proved::der_core::ErrorKind;
use crate::rattle_std::fmt;

/// What went wrong.
#[derive(Clone, Copy, Debug, PartialEq, Eq, Hash)]
#[non_exhaustive]
pub enum Error {
    /// An error of `der_core`.
    Asn1(crate::proved::der_core::Error),
    /// A cryptographic operation failed. Never returned by this library: it is there for callers.
    Crypto,
    /// The numbers aren't those of a key. Never returned by this library: it is there for callers.
    KeyMalformed,
    /// The number is no version. Only `Version::try_from` returns it.
    Version,
}

/// The result of the calls on keys and parameters.
pub type Result<T> = crate::rattle_std::result::Result<T, Error>;

/// The kind of the error of `der_core` that a call returned, if it returned one.
pub(crate) fn fault_of<T>(returned: Result<T>) -> Option<ErrorKind> {
    match returned {
        Err(Error::Asn1(error)) => Some(error.kind()),
        _ => None,
    }
}

impl From<crate::proved::der_core::Error> for Error {
    /// `Error::Asn1` of this error.
    fn from(error: crate::proved::der_core::Error) -> Error {
        Error::Asn1(error)
    }
}

impl fmt::Display for Error {
    fn fmt(&self, f: &mut fmt::Formatter<'_>) -> fmt::Result {
        match *self {
            Error::Asn1(error) => write!(f, "PKCS#1 ASN.1 error: {error}"),
            Error::Crypto => write!(f, "PKCS#1 cryptographic error"),
            Error::KeyMalformed => write!(f, "PKCS#1 cryptographic key data malformed"),
            Error::Version => write!(f, "PKCS#1 version error"),
        }
    }
}
