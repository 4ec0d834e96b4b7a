// Made of crates/der_core/src/boolean.rt by tools/erase/erase.py, and not to be edited.
//! BOOLEAN (X.690 8.2), as `bool`.

use crate::proved::der_core::decode::DecodeValue;
use crate::proved::der_core::encode::EncodeValue;
use crate::proved::der_core::error::{Error, ErrorKind, Result};
use crate::proved::der_core::grammar::{Contents, TagMarker, TaggedBy};
use crate::proved::der_core::length::Length;
use crate::proved::der_core::memory::Memory;
use crate::proved::der_core::prepend::Prepend;
use crate::proved::der_core::tag::Tag;
use crate::proved::der_core::writer::Writer;

/// The tag of BOOLEAN.
pub struct BooleanTag;

impl TagMarker for BooleanTag {
    const TAG: Tag = Tag::BOOLEAN;
}

impl Contents for bool {}

impl TaggedBy for bool {
    type Marker = BooleanTag;
}

/// The value with these contents octets: `Length` if there isn't one octet, `Value` if it is neither `00` nor
/// `ff`.
fn boolean(contents: &[u8]) -> Result<bool> {
    let tag = Tag::BOOLEAN;
    if contents.len() != 1 {
        return Err(Error::new(ErrorKind::Length { tag }));
    }
    if contents[0] == 0xff {
        Ok(true)
    } else if contents[0] == 0x00 {
        Ok(false)
    } else {
        Err(Error::new(ErrorKind::Value { tag }))
    }
}

impl<'a, M: Memory> DecodeValue<&'a [u8], M> for bool {
    #[inline(always)]
    fn read_value(_memory: M, contents: &'a [u8]) -> Result<bool> {
        boolean(contents)
    }
}

impl EncodeValue for bool {
    #[inline(always)]
    fn check_value(&self) -> Result<()> {
        Ok(())
    }

    #[inline(always)]
    fn prepend_value<W: Prepend>(&self, writer: &mut W) {
        writer.prepend(&[if *self { 0xff } else { 0x00 }]);
    }

    fn append_value<W: Writer>(&self, writer: &mut W) -> Result<()> {
        writer.write(&[if *self { 0xff } else { 0x00 }])
    }
}
