// Made of crates/pkcs1/src/version.rt by tools/erase/erase.py, and not to be edited.
//! Versions of private keys.

use crate::proved::der_core::{
    Contents, DecodeValue, EncodeValue, ErrorKind, IntegerTag, Memory, Prepend, Result, Tag,
    TaggedBy, Writer,
};
use crate::proved::pkcs1_params::Error;
use crate::rattle_std::cmp::Ordering;

/// The version of a private key: whether it has other primes (RFC 8017 A.1.2).
///
/// ```text
/// Version ::= INTEGER { two-prime(0), multi(1) }
/// ```
#[derive(Clone, Copy, Debug)]
pub enum Version {
    /// Two primes.
    TwoPrime = 0,
    /// More than two primes.
    Multi = 1,
}

impl Version {
    /// Whether it is `Multi`: there are more than two primes.
    #[must_use]
    pub fn is_multi(self) -> bool {
        matches!(self, Version::Multi)
    }
}

impl PartialEq for Version {
    fn eq(&self, other: &Version) -> bool {
        u8::from(*self) == u8::from(*other)
    }
}

impl Eq for Version {}

impl PartialOrd for Version {
    fn partial_cmp(&self, other: &Version) -> Option<Ordering> {
        Some(self.cmp(other))
    }
}

impl Ord for Version {
    /// The order of the version numbers.
    fn cmp(&self, other: &Version) -> Ordering {
        u8::from(*self).cmp(&u8::from(*other))
    }
}

impl From<Version> for u8 {
    /// The number of a version: 0 of `TwoPrime`, 1 of `Multi`.
    fn from(version: Version) -> u8 {
        version as u8
    }
}

impl TryFrom<u8> for Version {
    type Error = Error;

    /// The version of this number. `Error::Version` exactly if the number is above 1.
    fn try_from(number: u8) -> crate::rattle_std::result::Result<Version, Error> {
        match number {
            0 => Ok(Version::TwoPrime),
            1 => Ok(Version::Multi),
            _ => Err(Error::Version),
        }
    }
}

impl Contents for Version {}

impl TaggedBy for Version {
    type Marker = IntegerTag;
}

impl<'a, M: Memory> DecodeValue<&'a [u8], M> for Version {
    #[inline(always)]
    fn read_value(memory: M, contents: &'a [u8]) -> Result<Version> {
        let number = u8::read_value(memory, contents)?;
        match Version::try_from(number) {
            Ok(version) => Ok(version),
            Err(_) => Err(crate::proved::der_core::Error::new(ErrorKind::Value { tag: Tag::INTEGER })),
        }
    }
}

impl EncodeValue for Version {
    #[inline(always)]
    fn check_value(&self) -> Result<()> {
        Ok(())
    }

    #[inline(always)]
    fn prepend_value<W: Prepend>(&self, writer: &mut W) {
        u8::from(*self).prepend_value(writer);
    }

    fn append_value<W: Writer>(&self, writer: &mut W) -> Result<()> {
        u8::from(*self).append_value(writer)
    }
}
