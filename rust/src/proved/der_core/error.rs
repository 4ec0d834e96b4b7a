// Made of crates/der_core/src/error.rt by tools/erase/erase.py, and not to be edited.
//! Errors.

use crate::proved::der_core::tag::{PrintedOctet, Tag};
use crate::rattle_std::alloc::{AllocError, AllocFailed};
use crate::rattle_std::fmt;

/// What went wrong.
#[derive(Clone, Copy, Debug, PartialEq, Eq, Hash)]
#[non_exhaustive]
pub enum ErrorKind {
    /// An earlier read failed, so nothing more is read.
    Failed,
    /// Fewer bytes are left than are needed.
    Incomplete,
    /// The length octet is 80 (X.690 8.1.3.6), which DER forbids (10.1).
    IndefiniteLength,
    /// An INTEGER or a BIT STRING without contents octets, or a BOOLEAN of another number of them than one.
    Length { tag: Tag },
    /// Contents that aren't in shortest form, such as an INTEGER with a needless leading zero.
    Noncanonical { tag: Tag },
    /// The contents of an OBJECT IDENTIFIER are malformed (X.690 8.19), or have more than 39 octets.
    OidMalformed,
    /// Another object identifier than the expected one.
    OidUnknown,
    /// A length or a sum of lengths exceeds `Length::MAX`.
    Overflow,
    /// A length is encoded in more octets than it needs (X.690 10.1).
    Overlength,
    /// The parameters of an algorithm are needed and absent.
    ParametersMissing,
    /// Another tag than the expected one.
    TagUnexpected { expected: Tag, actual: Tag },
    /// A tag octet that isn't supported.
    TagUnknown { octet: u8 },
    /// Bytes follow the value.
    TrailingData,
    /// A negative number, a number out of range, or another value that the type doesn't have. In writing: a value
    /// without an encoding.
    Value { tag: Tag },
    /// A slice or a writer is too small.
    NoRoom,
    /// Opening, creating, reading, writing or flushing failed.
    File,
    /// Memory couldn't be allocated.
    OutOfMemory,
}

impl fmt::Display for ErrorKind {
    /// Prints the text of the kind, in lower case and without a full stop.
    fn fmt(&self, f: &mut fmt::Formatter<'_>) -> fmt::Result {
        let encoding = match *self {
            ErrorKind::Length { tag } => {
                return write!(f, "the contents of tag {tag} have a wrong length");
            }
            ErrorKind::Noncanonical { tag } => {
                return write!(f, "the contents of tag {tag} are not in shortest form");
            }
            ErrorKind::TagUnexpected { expected, actual } => {
                return write!(f, "tag {expected} was expected, {actual} was found");
            }
            ErrorKind::TagUnknown { octet } => {
                return write!(f, "the tag octet {} is not known", PrintedOctet(octet));
            }
            ErrorKind::Value { tag } => {
                return write!(f, "the value of tag {tag} is not allowed");
            }
            ErrorKind::Failed => "an earlier read failed",
            ErrorKind::Incomplete => "the input ends too early",
            ErrorKind::IndefiniteLength => "the length is indefinite",
            ErrorKind::OidMalformed => "the object identifier is malformed",
            ErrorKind::OidUnknown => "the object identifier is another one",
            ErrorKind::Overflow => "a length passes the limit",
            ErrorKind::Overlength => "the length is not in shortest form",
            ErrorKind::ParametersMissing => "the algorithm parameters are missing",
            ErrorKind::TrailingData => "bytes follow the value",
            ErrorKind::NoRoom => "the slice has no room",
            ErrorKind::File => "a read or a write failed",
            ErrorKind::OutOfMemory => "no memory was found",
        };
        f.write_str(encoding)
    }
}

/// The error of the calls in this crate.
#[derive(Clone, Copy, Debug, PartialEq, Eq, Hash)]
pub struct Error {
    /// What went wrong.
    pub kind: ErrorKind,
}

/// The result of the calls in this crate.
pub type Result<T> = crate::rattle_std::result::Result<T, Error>;

impl Error {
    /// An error of this kind.
    #[must_use]
    pub fn new(kind: ErrorKind) -> Error {
        Error { kind }
    }

    /// What went wrong.
    #[must_use]
    pub fn kind(&self) -> ErrorKind {
        self.kind
    }
}

impl From<AllocError> for Error {
    /// `OutOfMemory`, of an error of std's allocators.
    fn from(_error: AllocError) -> Error {
        Error::new(ErrorKind::OutOfMemory)
    }
}

impl<T> From<AllocFailed<T>> for Error {
    /// `OutOfMemory`, of an error of std's allocators. The value that couldn't be stored is dropped.
    fn from(_error: AllocFailed<T>) -> Error {
        Error::new(ErrorKind::OutOfMemory)
    }
}

impl fmt::Display for Error {
    /// Prints the text of the kind, and nothing else.
    fn fmt(&self, f: &mut fmt::Formatter<'_>) -> fmt::Result {
        write!(f, "{}", self.kind)
    }
}
