// Made of crates/pkcs8_core/src/attributes.rt by tools/erase/erase.py, and not to be edited.
//! The attributes of containers, as opaque bytes.

use crate::proved::pkcs1::der::{
    Contents, DecodeValue, EncodeValue, Memory, OneContents, Prepend, Result, Tag, TagMarker,
    TaggedBy, Writer,
};

/// The tag of attributes.
pub struct AttributesTag;

impl TagMarker for AttributesTag {
    const TAG: Tag = Tag { octet: 0xa0 };
}

/// Attributes, whose contents aren't checked and may be longer than `Length::MAX`.
#[derive(Clone, Copy)]
pub struct Attributes<'a> {
    pub(crate) bytes: &'a [u8],
}

impl<'a> Attributes<'a> {
    /// Attributes with these contents.
    #[inline(always)]
    pub(crate) fn new(bytes: &'a [u8]) -> Attributes<'a> {
        Attributes { bytes }
    }
}

impl Contents for Attributes<'_> {}

impl TaggedBy for Attributes<'_> {
    type Marker = AttributesTag;
}

impl OneContents for Attributes<'_> {}

impl<'a, M: Memory> DecodeValue<&'a [u8], M> for Attributes<'a> {
    #[inline(always)]
    fn read_value(_memory: M, contents: &'a [u8]) -> Result<Attributes<'a>> {
        Ok(Attributes::new(contents))
    }
}

impl EncodeValue for Attributes<'_> {
    #[inline(always)]
    fn check_value(&self) -> Result<()> {
        Ok(())
    }

    #[inline(always)]
    fn prepend_value<W: Prepend>(&self, writer: &mut W) {
        writer.prepend(self.bytes);
    }

    fn append_value<W: Writer>(&self, writer: &mut W) -> Result<()> {
        writer.write(self.bytes)
    }
}
