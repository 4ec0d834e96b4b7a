//! Errors.

use core::fmt;

/// The result of the calls in this crate.
pub type Result<T> = core::result::Result<T, Error>;

/// The error of the calls in this crate.
#[derive(Clone, Copy, Debug, PartialEq, Eq)]
#[non_exhaustive]
pub enum Error {
    /// The encoding is wrong, or a file can't be read or written.
    Asn1(der::Error),
    /// For callers: the numbers make no key.
    Crypto,
    /// For callers: the key is malformed.
    KeyMalformed,
    /// A container is wrong.
    #[cfg(feature = "pkcs8")]
    Pkcs8(pkcs8::Error),
    /// There is no such version.
    Version,
}

impl fmt::Display for Error {
    fn fmt(&self, f: &mut fmt::Formatter<'_>) -> fmt::Result {
        match self {
            Error::Asn1(error) => write!(f, "PKCS#1 ASN.1 error: {error}"),
            Error::Crypto => f.write_str("PKCS#1 cryptographic error"),
            Error::KeyMalformed => f.write_str("PKCS#1 cryptographic key data malformed"),
            #[cfg(feature = "pkcs8")]
            Error::Pkcs8(error) => error.fmt(f),
            Error::Version => f.write_str("PKCS#1 version error"),
        }
    }
}

impl core::error::Error for Error {
    fn source(&self) -> Option<&(dyn core::error::Error + 'static)> {
        match self {
            Error::Asn1(error) => crate::release::source(error),
            _ => None,
        }
    }
}

macro_rules! made_of {
    ($($(#[$if:meta])? $to:ty, $error:ident: $from:ty => $made:expr;)*) => { $(
        $(#[$if])?
        impl From<$from> for $to {
            fn from($error: $from) -> $to {
                $made
            }
        }
    )* };
}
made_of! {
    Error, error: der::Error => Error::Asn1(error);
    #[cfg(feature = "pem")]
    Error, error: der::pem::Error => Error::Asn1(error.into());
    #[cfg(feature = "pkcs8")]
    Error, error: pkcs8::Error => Error::Pkcs8(error);
    #[cfg(feature = "pkcs8")]
    Error, error: spki::Error => Error::Pkcs8(error.into());
    #[cfg(feature = "pkcs8")]
    pkcs8::Error, error: Error => match error {
        Error::Asn1(error) => error.into(),
        Error::Pkcs8(error) => error,
        _ => crate::release::MALFORMED,
    };
    #[cfg(feature = "pkcs8")]
    spki::Error, error: Error => match error {
        Error::Asn1(error) => error.into(),
        _ => spki::Error::KeyMalformed,
    };
}
