// Made of crates/der_core/src/octet_string.rt by tools/erase/erase.py, and not to be edited.
//! OCTET STRING (X.690 8.7).

use crate::proved::der_core::decode::DecodeValue;
use crate::proved::der_core::encode::EncodeValue;
use crate::proved::der_core::error::{Error, ErrorKind, Result};
use crate::proved::der_core::grammar::{Contents, EqualByValue, TagMarker, TaggedBy};
use crate::proved::der_core::length::Length;
use crate::proved::der_core::memory::Memory;
use crate::proved::der_core::prepend::Prepend;
use crate::proved::der_core::tag::Tag;
use crate::proved::der_core::writer::Writer;

/// An OCTET STRING of at most `Length::MAX` octets. It borrows them.
#[derive(Clone, Copy, Debug, PartialEq, Eq, Hash)]
pub struct OctetStringRef<'a> {
    bytes: &'a [u8],
}

impl<'a> OctetStringRef<'a> {
    /// The string of these octets.
    /// # Errors
    /// `Overflow` exactly if there are more than `Length::MAX`.
    pub fn new(bytes: &'a [u8]) -> Result<OctetStringRef<'a>> {
        if bytes.len() > Length::MAX.to_usize() {
            return Err(Error::new(ErrorKind::Overflow));
        }
        Ok(OctetStringRef { bytes })
    }

    /// The octets, borrowed from the input. They are at most `Length::MAX`.
    #[must_use]
    pub fn as_bytes(&self) -> &'a [u8] {
        self.bytes
    }

    /// How many octets there are.
    #[must_use]
    pub fn len(&self) -> Length {
        Length::of(self.bytes.len())
    }

    /// Whether there is no octet. An OCTET STRING may have none (X.690 8.7.2).
    #[must_use]
    pub fn is_empty(&self) -> bool {
        self.bytes.is_empty()
    }
}

/// The tag of OCTET STRING.
pub struct OctetStringTag;

impl TagMarker for OctetStringTag {
    const TAG: Tag = Tag::OCTET_STRING;
}

impl Contents for OctetStringRef<'_> {}

impl TaggedBy for OctetStringRef<'_> {
    type Marker = OctetStringTag;
}

impl EqualByValue for OctetStringRef<'_> {}

impl<'a, M: Memory> DecodeValue<&'a [u8], M> for OctetStringRef<'a> {
    #[inline(always)]
    fn read_value(_memory: M, contents: &'a [u8]) -> Result<OctetStringRef<'a>> {
        Ok(OctetStringRef { bytes: contents })
    }
}

impl EncodeValue for OctetStringRef<'_> {
    #[inline(always)]
    fn check_value(&self) -> Result<()> {
        Ok(())
    }

    #[inline(always)]
    fn prepend_value<W: Prepend>(&self, writer: &mut W) {
        writer.prepend(self.bytes);
    }

    fn append_value<W: Writer>(&self, writer: &mut W) -> Result<()> {
        writer.write(self.bytes)
    }
}
