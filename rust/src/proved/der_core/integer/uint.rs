// Made of crates/der_core/src/integer/uint.rt by tools/erase/erase.py, and not to be edited.
//! Unsigned numbers that borrow their bytes.

use crate::proved::der_core::decode::DecodeValue;
use crate::proved::der_core::encode::EncodeValue;
use crate::proved::der_core::error::{Error, ErrorKind, Result};
use crate::proved::der_core::grammar::{Contents, Encoding, EqualByValue, IntegerTag, TaggedBy};
use crate::proved::der_core::length::Length;
use crate::proved::der_core::memory::Memory;
use crate::proved::der_core::prepend::Prepend;
use crate::proved::der_core::tag::Tag;
use crate::proved::der_core::try_clone::TryClone;
use crate::proved::der_core::writer::Writer;
use crate::rattle_std::alloc::Global;

/// An unsigned number as big-endian bytes: no leading zeros, and one zero byte for 0. It borrows them.
#[derive(Clone, Copy, PartialEq, Eq, Hash)]
pub struct UintRef<'a> {
    bytes: &'a [u8],
}

/// A type that holds an unsigned number.
pub trait AsUintRef {
    /// The same number, borrowed.
    fn as_uint_ref(&self) -> UintRef<'_>;
}

impl AsUintRef for UintRef<'_> {
    fn as_uint_ref(&self) -> UintRef<'_> {
        *self
    }
}

/// A type whose values are encoded as the unsigned numbers that they hold.
pub trait UintEncoding: AsUintRef + Encoding {}

impl UintEncoding for UintRef<'_> {}

/// The bytes without needless leading zeros.
fn strip(bytes: &[u8]) -> &[u8] {
    let mut rest = bytes;
    while rest.len() > 1 && rest[0] == 0 {
        rest = &rest[1..];
    }
    rest
}

impl<'a> UintRef<'a> {
    /// The number with these big-endian bytes, which may have leading zeros.
    /// # Errors
    /// `Length` of INTEGER exactly if there is no byte, `Overflow` exactly if more than `Length::MAX` bytes remain
    /// without leading zeros.
    pub fn new(bytes: &'a [u8]) -> Result<UintRef<'a>> {
        let bytes = strip(bytes);
        if bytes.is_empty() {
            return Err(Error::new(ErrorKind::Length { tag: Tag::INTEGER }));
        }
        if bytes.len() > Length::MAX.to_usize() {
            return Err(Error::new(ErrorKind::Overflow));
        }
        Ok(UintRef { bytes })
    }

    /// The number with these big-endian bytes. `None` exactly if there is no byte, if a needless zero stands in front,
    /// or if they are more than `Length::MAX`.
    #[inline(always)]
    #[must_use]
    pub fn from_canonical(bytes: &'a [u8]) -> Option<UintRef<'a>> {
        match bytes {
            [] | [0, _, ..] => None,
            _ if bytes.len() > Length::MAX.to_usize() => None,
            _ => Some(UintRef { bytes }),
        }
    }

    /// The number with these bytes, which have no needless leading zero.
    pub(super) fn over(bytes: &'a [u8]) -> UintRef<'a> {
        UintRef { bytes }
    }

    /// The bytes, most significant first: at least one, at most `Length::MAX`, and no needless zero in front.
    #[must_use]
    pub fn as_bytes(&self) -> &'a [u8] {
        self.bytes
    }

    /// The bit length of the number, as 2048 of the modulus of an RSA-2048 key: the least n with it below 2^n, 0 of 0.
    #[must_use]
    pub fn bit_len(&self) -> u64 {
        8 * self.bytes.len() as u64 - self.bytes[0].leading_zeros() as u64
    }
}

/// The number with these contents octets.
#[inline(always)]
pub(crate) fn integer(contents: &[u8]) -> Result<UintRef<'_>> {
    let tag = Tag::INTEGER;
    match contents {
        [0, rest @ ..] => match rest {
            [] => Ok(UintRef { bytes: contents }),
            [second, ..] if *second >= 0x80 => Ok(UintRef { bytes: rest }),
            [_, ..] => Err(Error::new(ErrorKind::Noncanonical { tag })),
        },
        [first, ..] if *first < 0x80 => Ok(UintRef { bytes: contents }),
        [] => Err(Error::new(ErrorKind::Length { tag })),
        [_, ..] => Err(Error::new(ErrorKind::Value { tag })),
    }
}

impl<'a> TryClone for UintRef<'a> {
    /// The same number, over the same bytes. Never `OutOfMemory`.
    fn try_clone_in(&self, _alloc: Global) -> Result<UintRef<'a>> {
        Ok(*self)
    }
}

impl<'a> Contents for UintRef<'a> {}

impl<'a> TaggedBy for UintRef<'a> {
    type Marker = IntegerTag;
}

impl EqualByValue for UintRef<'_> {}

impl<'a, M: Memory> DecodeValue<&'a [u8], M> for UintRef<'a> {
    #[inline(always)]
    fn read_value(_memory: M, contents: &'a [u8]) -> Result<UintRef<'a>> {
        integer(contents)
    }
}

/// Writes the contents of the number with these bytes in front of what was received, or counts them.
#[inline(always)]
pub(crate) fn prepend_number<W: Prepend>(bytes: &[u8], writer: &mut W) {
    writer.prepend(bytes);
    if bytes[0] >= 0x80 {
        writer.prepend(&[0]);
    }
}

/// Appends the contents of the number with these bytes.
#[inline(always)]
pub(crate) fn append_number<W: Writer>(bytes: &[u8], writer: &mut W) -> Result<()> {
    if bytes[0] >= 0x80 {
        writer.write(&[0])?;
    }
    writer.write(bytes)
}

impl EncodeValue for UintRef<'_> {
    #[inline(always)]
    fn check_value(&self) -> Result<()> {
        Ok(())
    }

    #[inline(always)]
    fn prepend_value<W: Prepend>(&self, writer: &mut W) {
        prepend_number(self.bytes, writer);
    }

    fn append_value<W: Writer>(&self, writer: &mut W) -> Result<()> {
        append_number(self.bytes, writer)
    }
}
