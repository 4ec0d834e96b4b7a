// Made of crates/der_core/src/in_range.rt by tools/erase/erase.py, and not to be edited.
//! An INTEGER in a range, such as the version of a structure that has several.

use crate::proved::der_core::decode::DecodeValue;
use crate::proved::der_core::encode::EncodeValue;
use crate::proved::der_core::error::{Error, ErrorKind, Result};
use crate::proved::der_core::grammar::{Contents, IntegerTag, TaggedBy};
use crate::proved::der_core::memory::Memory;
use crate::proved::der_core::prepend::Prepend;
use crate::proved::der_core::tag::Tag;
use crate::proved::der_core::writer::Writer;

/// An INTEGER from `MIN` to `MAX`. Another number is `Value` of INTEGER, where it is read and where it is written.
#[derive(Clone, Copy, Debug, PartialEq, Eq, Hash)]
pub struct InRange<const MIN: u8, const MAX: u8>(pub u8);

impl<const MIN: u8, const MAX: u8> InRange<MIN, MAX> {
    /// Whether the number is in the range.
    #[inline(always)]
    fn is_within(self) -> bool {
        MIN <= self.0 && self.0 <= MAX
    }
}

impl<const MIN: u8, const MAX: u8> Contents for InRange<MIN, MAX> {}

impl<const MIN: u8, const MAX: u8> TaggedBy for InRange<MIN, MAX> {
    type Marker = IntegerTag;
}

impl<'a, M: Memory, const MIN: u8, const MAX: u8> DecodeValue<&'a [u8], M> for InRange<MIN, MAX> {
    #[inline(always)]
    fn read_value(memory: M, contents: &'a [u8]) -> Result<InRange<MIN, MAX>> {
        let number = InRange(u8::read_value(memory, contents)?);
        if !number.is_within() {
            return Err(Error::new(ErrorKind::Value { tag: Tag::INTEGER }));
        }
        Ok(number)
    }
}

impl<const MIN: u8, const MAX: u8> EncodeValue for InRange<MIN, MAX> {
    #[inline(always)]
    fn check_value(&self) -> Result<()> {
        if self.is_within() {
            Ok(())
        } else {
            Err(Error::new(ErrorKind::Value { tag: Tag::INTEGER }))
        }
    }

    #[inline(always)]
    fn prepend_value<W: Prepend>(&self, writer: &mut W) {
        self.0.prepend_value(writer);
    }

    fn append_value<W: Writer>(&self, writer: &mut W) -> Result<()> {
        self.0.append_value(writer)
    }
}
