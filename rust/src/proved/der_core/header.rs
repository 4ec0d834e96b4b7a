// Made of crates/der_core/src/header.rt by tools/erase/erase.py, and not to be edited.
//! Headers: a tag and a length.

use crate::proved::der_core::error::Result;
use crate::proved::der_core::length::Length;
use crate::proved::der_core::reader::{Reader, read_octet};
use crate::proved::der_core::tag::Tag;
use crate::rattle_std::arrayvec::ArrayVec;

/// A tag and a length.
#[derive(Clone, Copy, Debug, PartialEq, Eq, Hash)]
pub struct Header {
    /// The tag of the encoding that begins here.
    pub tag: Tag,
    /// How many contents octets follow the header.
    pub length: Length,
}

/// Reads a tag octet and a length.
#[inline(always)]
fn read_header<'a, R: Reader<&'a [u8]>>(reader: &mut R) -> Result<Header> {
    let octet = read_octet(reader)?;
    match Tag::from_octet(octet) {
        Ok(tag) => {
            let length = Length::decode(reader)?;
            Ok(Header { tag, length })
        }
        Err(e) => Err(reader.error(e.kind())),
    }
}

impl Header {
    /// Reads the tag octet and the length at the front of what is left. Err: the first fault of these.
    #[inline(always)]
    pub(crate) fn decode<'a, R: Reader<&'a [u8]>>(reader: &mut R) -> Result<Header> {
        read_header(reader)
    }

    /// The tag octet and the length octets.
    pub(crate) fn to_bytes(self) -> ArrayVec<u8, 6> {
        let mut bytes = ArrayVec::new();
        bytes.push(self.tag.octet());
        let length = self.length.to_bytes();
        for octet in length.as_slice() {
            bytes.push(*octet);
        }
        bytes
    }
}
