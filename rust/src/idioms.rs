//! What Rust's idioms want beside the proved functions.

use crate::Error;
use crate::der::{self, Length, TagNumber};

impl core::error::Error for der::Error {}

impl core::error::Error for Error {
    fn source(&self) -> Option<&(dyn core::error::Error + 'static)> {
        match self {
            Error::Asn1(error) => Some(error),
            _ => None,
        }
    }
}

impl Default for Length {
    fn default() -> Length {
        Length::ZERO
    }
}

impl TryFrom<u8> for TagNumber {
    type Error = der::Error;

    /// `TagUnknown` of a number above 30.
    fn try_from(number: u8) -> der::Result<TagNumber> {
        if number > 30 { Err(der::ErrorKind::TagUnknown { octet: number }.into()) } else { Ok(TagNumber::new(number)) }
    }
}

impl From<Length> for u32 {
    fn from(length: Length) -> u32 {
        length.to_usize() as u32
    }
}

impl TryFrom<Length> for usize {
    type Error = der::Error;

    fn try_from(length: Length) -> der::Result<usize> {
        Ok(length.to_usize())
    }
}

impl core::fmt::Display for Length {
    fn fmt(&self, f: &mut core::fmt::Formatter<'_>) -> core::fmt::Result {
        self.to_usize().fmt(f)
    }
}

impl From<der::ErrorKind> for der::Error {
    fn from(kind: der::ErrorKind) -> der::Error {
        der::Error::new(kind)
    }
}
