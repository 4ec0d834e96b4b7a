// Made of crates/pkcs1_params/src/trailer_field.rt by tools/erase/erase.py, and not to be edited.
//! The trailer field of RSASSA-PSS.

use crate::proved::der_core::{
    Contents, DecodeValue, EncodeValue, EqualByValue, Error, ErrorKind, IntegerTag, Memory,
    Prepend, Result, Tag, TaggedBy, Writer,
};

/// The trailer field, of which one is known (RFC 8017 A.2.3).
///
/// ```text
/// TrailerField ::= INTEGER { trailerFieldBC(1) }
/// ```
#[derive(Clone, Copy, Debug, PartialEq, Eq, Hash)]
pub enum TrailerField {
    /// The octet `bc`.
    BC = 1,
}

impl Default for TrailerField {
    fn default() -> TrailerField {
        TrailerField::BC
    }
}

impl Contents for TrailerField {}

impl TaggedBy for TrailerField {
    type Marker = IntegerTag;
}

impl EqualByValue for TrailerField {}

impl<'a, M: Memory> DecodeValue<&'a [u8], M> for TrailerField {
    #[inline(always)]
    fn read_value(memory: M, contents: &'a [u8]) -> Result<TrailerField> {
        match u8::read_value(memory, contents)? {
            1 => Ok(TrailerField::BC),
            _ => Err(Error::new(ErrorKind::Value { tag: Tag::INTEGER })),
        }
    }
}

impl EncodeValue for TrailerField {
    #[inline(always)]
    fn check_value(&self) -> Result<()> {
        (*self as u8).check_value()
    }

    #[inline(always)]
    fn prepend_value<W: Prepend>(&self, writer: &mut W) {
        (*self as u8).prepend_value(writer);
    }

    fn append_value<W: Writer>(&self, writer: &mut W) -> Result<()> {
        (*self as u8).append_value(writer)
    }
}
