// Made of crates/der_core/src/tag.rt by tools/erase/erase.py, and not to be edited.
//! Tags of one octet.

use crate::proved::der_core::error::{Error, ErrorKind, Result};
use crate::rattle_std::fmt;

/// A tag of one octet (X.690 8.1.2): class in bits 8 and 7, the constructed bit in bit 6, the number in bits 5 to 1.
/// Supported are all octets but `00`, `20` and those with the number 31.
#[derive(Clone, Copy, Debug, PartialEq, Eq, Hash)]
pub struct Tag {
    /// The identifier octet.
    pub(crate) octet: u8,
}

impl Tag {
    /// The tag of BOOLEAN (X.690 8.2): universal, primitive, number 1.
    pub const BOOLEAN: Tag = Tag { octet: 0x01 };

    /// The tag of INTEGER (X.690 8.3): universal, primitive, number 2.
    pub const INTEGER: Tag = Tag { octet: 0x02 };

    /// The tag of BIT STRING (X.690 8.6): universal, number 3, and primitive, as DER demands (10.2).
    pub const BIT_STRING: Tag = Tag { octet: 0x03 };

    /// The tag of OCTET STRING (X.690 8.7): universal, number 4, and primitive, as DER demands (10.2).
    pub const OCTET_STRING: Tag = Tag { octet: 0x04 };

    /// The tag of NULL (X.690 8.8): universal, primitive, number 5.
    pub const NULL: Tag = Tag { octet: 0x05 };

    /// The tag of OBJECT IDENTIFIER (X.690 8.19): universal, primitive, number 6.
    pub const OBJECT_IDENTIFIER: Tag = Tag { octet: 0x06 };

    /// The tag of SEQUENCE (X.690 8.9) and SEQUENCE OF (8.10): universal, constructed, number 16.
    pub const SEQUENCE: Tag = Tag { octet: 0x30 };

    /// The tag with this octet.
    /// # Errors
    /// `TagUnknown` exactly if the octet isn't supported.
    pub fn from_octet(octet: u8) -> Result<Tag> {
        if octet & 0x1f == 0x1f || octet == 0 || octet == 0x20 {
            Err(Error::new(ErrorKind::TagUnknown { octet }))
        } else {
            Ok(Tag { octet })
        }
    }

    /// The tag `[number]`: context-specific, constructed (X.690 8.1.2.2, 8.14.3).
    #[must_use]
    pub fn context(number: TagNumber) -> Tag {
        Tag {
            octet: 0xa0 + number.value,
        }
    }

    /// The identifier octet.
    #[must_use]
    pub const fn octet(self) -> u8 {
        self.octet
    }
}

/// A tag number of at most 30: greater ones need more than one octet (X.690 8.1.2.4).
#[derive(Clone, Copy, Debug, PartialEq, Eq, Hash)]
pub struct TagNumber {
    /// The number, without the class and the constructed bit.
    pub(crate) value: u8,
}

impl TagNumber {
    /// The number of the tag `[value]`, which has to be at most 30.
    pub(crate) fn new(value: u8) -> TagNumber {
        TagNumber { value }
    }

    /// The number, without the class and the constructed bit. It is at most 30.
    #[must_use]
    pub fn value(self) -> u8 {
        self.value
    }
}

impl fmt::Display for Tag {
    /// Prints exactly `0x` and the two hexadecimal digits of the octet, in lower case.
    fn fmt(&self, f: &mut fmt::Formatter<'_>) -> fmt::Result {
        write!(f, "{}", PrintedOctet(self.octet))
    }
}

/// An octet that is printed as `0x` and two lower-case hexadecimal digits.
#[derive(Clone, Copy)]
pub(crate) struct PrintedOctet(pub(crate) u8);

impl fmt::Display for PrintedOctet {
    fn fmt(&self, f: &mut fmt::Formatter<'_>) -> fmt::Result {
        let PrintedOctet(octet) = *self;
        write!(f, "0x{octet:02x}")
    }
}
