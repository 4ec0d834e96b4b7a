// Made of crates/der_core/src/last_part.rt by tools/erase/erase.py, and not to be edited.
//! The last part of some contents: one encoding, or an OPTIONAL one.

use crate::proved::der_core::decode::{Decode, DecodeValue, read_optional};
use crate::proved::der_core::encode::{Encode, EncodeValue};
use crate::proved::der_core::error::{Error, ErrorKind, Result};
use crate::proved::der_core::grammar::{Contents, Encoding, FixedTag};
use crate::proved::der_core::memory::Memory;
use crate::proved::der_core::parts::{DecodeParts, Row};
use crate::proved::der_core::prepend::Prepend;
use crate::proved::der_core::tag::Tag;
use crate::proved::der_core::writer::Writer;

/// An OPTIONAL last part: one encoding, or nothing. Whatever is left is read as the part.
pub struct Last<T>(pub Option<T>);

/// A borrowed OPTIONAL last part, which is written as the part itself.
pub struct BorrowedLast<'b, T>(pub &'b Option<T>);

impl<T: Encoding> Contents for Last<T> {}

impl<T: Encoding> Contents for BorrowedLast<'_, T> {}

impl<T: Encoding> Row for Last<T> {
    #[inline(always)]
    fn may_begin_with(tag: Tag) -> bool {
        T::may_start_with(tag)
    }
}

impl<T: Encoding> Row for BorrowedLast<'_, T> {
    #[inline(always)]
    fn may_begin_with(tag: Tag) -> bool {
        Last::<T>::may_begin_with(tag)
    }
}

impl<'a, M: Memory, T: Decode<&'a [u8], M>> DecodeParts<&'a [u8], M> for Last<T> {
    #[inline(always)]
    fn read_parts(memory: M, contents: &'a [u8]) -> Result<Last<T>> {
        if contents.is_empty() {
            return Ok(Last(None));
        }
        let part = T::read_alone(memory, contents)?;
        Ok(Last(Some(part)))
    }
}

/// Whether the part has an encoding, if it is there.
#[inline(always)]
fn check_optional<T: Encode>(part: &Option<T>) -> Result<()> {
    match part {
        Some(part) => part.check(),
        None => Ok(()),
    }
}

/// Writes the part in front of what was received, or counts it, if it is there.
#[inline(always)]
fn prepend_optional<T: Encode, W: Prepend>(part: &Option<T>, writer: &mut W) {
    if let Some(part) = part {
        part.prepend(writer);
    }
}

/// Appends the part, if it is there.
fn append_optional<T: Encode, W: Writer>(part: &Option<T>, writer: &mut W) -> Result<()> {
    match part {
        Some(part) => part.append(writer),
        None => Ok(()),
    }
}

impl<T: Encode> EncodeValue for Last<T> {
    #[inline(always)]
    fn check_value(&self) -> Result<()> {
        check_optional(&self.0)
    }

    #[inline(always)]
    fn prepend_value<W: Prepend>(&self, writer: &mut W) {
        prepend_optional(&self.0, writer);
    }

    fn append_value<W: Writer>(&self, writer: &mut W) -> Result<()> {
        append_optional(&self.0, writer)
    }
}

impl<T: Encode> EncodeValue for BorrowedLast<'_, T> {
    #[inline(always)]
    fn check_value(&self) -> Result<()> {
        check_optional(self.0)
    }

    #[inline(always)]
    fn prepend_value<W: Prepend>(&self, writer: &mut W) {
        prepend_optional(self.0, writer);
    }

    fn append_value<W: Writer>(&self, writer: &mut W) -> Result<()> {
        append_optional(self.0, writer)
    }
}

/// An OPTIONAL last part that is known by its tag: octets that begin with another are `TrailingData`.
pub struct LastByTag<T>(pub Last<T>);

impl<T: Contents + FixedTag> Contents for LastByTag<T> {}

impl<T: Contents + FixedTag> Row for LastByTag<T> {
    #[inline(always)]
    fn may_begin_with(tag: Tag) -> bool {
        T::TAG.octet() == tag.octet()
    }
}

impl<'a, M: Memory, T: DecodeValue<&'a [u8], M> + FixedTag> DecodeParts<&'a [u8], M>
    for LastByTag<T> {
    #[inline(always)]
    fn read_parts(memory: M, contents: &'a [u8]) -> Result<LastByTag<T>> {
        let (part, rest) = read_optional(memory, contents)?;
        if !rest.is_empty() {
            return Err(Error::new(ErrorKind::TrailingData));
        }
        Ok(LastByTag(Last(part)))
    }
}

impl<T: EncodeValue + FixedTag> EncodeValue for LastByTag<T> {
    #[inline(always)]
    fn check_value(&self) -> Result<()> {
        self.0.check_value()
    }

    #[inline(always)]
    fn prepend_value<W: Prepend>(&self, writer: &mut W) {
        self.0.prepend_value(writer);
    }

    fn append_value<W: Writer>(&self, writer: &mut W) -> Result<()> {
        self.0.append_value(writer)
    }
}
