// Made of crates/der_core/src/length.rt by tools/erase/erase.py, and not to be edited.
//! Lengths.

use crate::proved::der_core::error::{Error, ErrorKind, Result};
use crate::proved::der_core::reader::{Reader, read_octet};
use crate::proved::der_core::tag::Tag;
use crate::rattle_std::arrayvec::ArrayVec;
use crate::rattle_std::marker::Model;

/// A number of octets, at most `Length::MAX`.
#[derive(Clone, Copy, Debug, PartialEq, Eq, Hash, PartialOrd, Ord)]
pub struct Length {
    value: u32,
}

impl Model for Length {}

/// How many octets a tag, a length and contents of so many octets are. More than `Length::MAX` if the contents are.
#[inline(always)]
pub(crate) fn with_header(contents: u64) -> u64 {
    if contents < 0x80 {
        return contents + 2;
    }
    if contents < 0x100 {
        return contents + 3;
    }
    if contents < 0x1_0000 {
        return contents + 4;
    }
    if contents < 0x100_0000 {
        return contents + 5;
    }
    contents.saturating_add(6)
}

/// The big-endian number in at most four octets.
#[inline(always)]
fn number(octets: &[u8]) -> u32 {
    match octets {
        [] => 0,
        [a] => *a as u32,
        [a, b] => *a as u32 * 0x100 + *b as u32,
        [a, b, c] => *a as u32 * 0x1_0000 + *b as u32 * 0x100 + *c as u32,
        [a, b, c, d] => {
            *a as u32 * 0x100_0000 + *b as u32 * 0x1_0000 + *c as u32 * 0x100 + *d as u32
        }
        _ => unreachable!(),
    }
}

/// Whether the short form, or fewer octets, would do (X.690 10.1).
fn is_overlong(octets: &[u8]) -> bool {
    match octets {
        [] => true,
        [octet] => *octet < 0x80,
        [first, ..] => *first == 0,
    }
}

/// Reads the length octets.
#[inline(always)]
fn read_length<'a, R: Reader<&'a [u8]>>(reader: &mut R) -> Result<Length> {
    let first = read_octet(reader)?;
    if first < 0x80 {
        return Ok(Length {
            value: first as u32,
        });
    }
    if first == 0x80 {
        return Err(reader.error(ErrorKind::IndefiniteLength));
    }
    if first > 0x84 {
        return Err(reader.error(ErrorKind::Overflow));
    }
    let octets = reader.read_slice(Length {
        value: (first - 0x80) as u32,
    })?;
    if is_overlong(octets) {
        return Err(reader.error(ErrorKind::Overlength));
    }
    Ok(Length {
        value: number(octets),
    })
}

impl TryFrom<usize> for Length {
    type Error = Error;

    /// The length of this number. `Overflow` exactly if it exceeds `MAX`.
    fn try_from(value: usize) -> Result<Length> {
        Length::counted(value as u64)
    }
}

impl Length {
    /// No octets.
    pub const ZERO: Length = Length { value: 0 };

    /// One octet.
    pub const ONE: Length = Length { value: 1 };

    /// The most octets that contents, or an encoding that is read or written whole, may have: 2^32 - 1.
    pub const MAX: Length = Length { value: 4294967295 };

    /// The length of this number, which has to be at most `MAX`.
    pub(crate) fn of(value: usize) -> Length {
        Length {
            value: value as u32,
        }
    }

    /// The length that was counted. `Overflow` exactly if it exceeds `MAX`.
    #[inline(always)]
    pub(crate) fn counted(number: u64) -> Result<Length> {
        if number <= Length::MAX.value as u64 {
            Ok(Length {
                value: number as u32,
            })
        } else {
            Err(Error::new(ErrorKind::Overflow))
        }
    }

    /// The number of octets, as slices count them. It is at most `MAX`.
    #[must_use]
    pub fn to_usize(self) -> usize {
        self.value as usize
    }

    /// The sum.
    /// # Errors
    /// `Overflow` exactly if it exceeds `MAX`.
    pub fn checked_add(self, other: Length) -> Result<Length> {
        match self.value.checked_add(other.value) {
            Some(value) => Ok(Length { value }),
            None => Err(Error::new(ErrorKind::Overflow)),
        }
    }

    /// The length of an encoding whose contents have this length. It is the same under each tag, which has one octet.
    /// # Errors
    /// `Overflow` exactly if it exceeds `MAX`.
    pub fn for_tlv(self, _tag: Tag) -> Result<Length> {
        Length::counted(with_header(self.value as u64))
    }

    /// The length octets (X.690 8.1.3), as few as possible, at most 5.
    pub(crate) fn to_bytes(self) -> ArrayVec<u8, 5> {
        self.octets()
    }

    /// The length octets.
    fn octets(self) -> ArrayVec<u8, 5> {
        let number = self.value;
        let mut bytes = ArrayVec::new();
        if number < 0x80 {
            bytes.push(number as u8);
        } else if number < 0x100 {
            bytes.push(0x81);
            bytes.push(number as u8);
        } else if number < 0x1_0000 {
            bytes.push(0x82);
            bytes.push((number / 0x100) as u8);
            bytes.push((number % 0x100) as u8);
        } else if number < 0x100_0000 {
            bytes.push(0x83);
            bytes.push((number / 0x1_0000) as u8);
            bytes.push((number / 0x100 % 0x100) as u8);
            bytes.push((number % 0x100) as u8);
        } else {
            bytes.push(0x84);
            bytes.push((number / 0x100_0000) as u8);
            bytes.push((number / 0x1_0000 % 0x100) as u8);
            bytes.push((number / 0x100 % 0x100) as u8);
            bytes.push((number % 0x100) as u8);
        }
        bytes
    }

    /// Reads the length octets at the front of what is left. Err: the first fault of these.
    #[inline(always)]
    pub(crate) fn decode<'a, R: Reader<&'a [u8]>>(reader: &mut R) -> Result<Length> {
        read_length(reader)
    }
}
