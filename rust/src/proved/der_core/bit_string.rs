// Made of crates/der_core/src/bit_string.rt by tools/erase/erase.py, and not to be edited.
//! BIT STRINGs of whole octets (X.690 8.6).

use crate::proved::der_core::decode::DecodeValue;
use crate::proved::der_core::encode::EncodeValue;
use crate::proved::der_core::error::{Error, ErrorKind, Result};
use crate::proved::der_core::grammar::{Contents, TagMarker, TaggedBy};
use crate::proved::der_core::length::Length;
use crate::proved::der_core::memory::Memory;
use crate::proved::der_core::octet_string::OctetStringRef;
use crate::proved::der_core::prepend::Prepend;
use crate::proved::der_core::tag::Tag;
use crate::proved::der_core::writer::Writer;

/// The tag of BIT STRING.
pub struct BitStringTag;

impl TagMarker for BitStringTag {
    const TAG: Tag = Tag::BIT_STRING;
}

/// A BIT STRING of whole octets, which are the contents octets of a `C`. If bits are unused it is `Value` of BIT STRING.
#[derive(Clone, Copy, Debug, PartialEq, Eq, Hash)]
pub struct BitString<C>(pub C);

/// A BIT STRING of any octets, which are borrowed.
pub type BitStringRef<'a> = BitString<OctetStringRef<'a>>;

impl<C: Contents> Contents for BitString<C> {}

impl<C> TaggedBy for BitString<C> {
    type Marker = BitStringTag;
}

/// The octets behind the number of unused bits, which has to be there, and 0.
#[inline(always)]
fn octets_behind(contents: &[u8]) -> Result<&[u8]> {
    let tag = Tag::BIT_STRING;
    match contents {
        [] => Err(Error::new(ErrorKind::Length { tag })),
        [unused, ..] if *unused != 0 => Err(Error::new(ErrorKind::Value { tag })),
        [_, octets @ ..] => Ok(octets),
    }
}

impl<'a, M: Memory, C: DecodeValue<&'a [u8], M>> DecodeValue<&'a [u8], M> for BitString<C> {
    #[inline(always)]
    fn read_value(memory: M, contents: &'a [u8]) -> Result<BitString<C>> {
        let octets = octets_behind(contents)?;
        let value = C::read_value(memory, octets)?;
        Ok(BitString(value))
    }
}

impl<C: EncodeValue> EncodeValue for BitString<C> {
    #[inline(always)]
    fn check_value(&self) -> Result<()> {
        self.0.check_value()
    }

    #[inline(always)]
    fn prepend_value<W: Prepend>(&self, writer: &mut W) {
        self.0.prepend_value(writer);
        writer.prepend(&[0]);
    }

    fn append_value<W: Writer>(&self, writer: &mut W) -> Result<()> {
        writer.write(&[0])?;
        self.0.append_value(writer)
    }
}
