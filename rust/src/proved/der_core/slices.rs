// Made of crates/der_core/src/slices.rt by tools/erase/erase.py, and not to be edited.
//! Reading of slices that hold contents octets alone, or an encoding and what follows it.

use crate::proved::der_core::decode::{Decode, DecodeValue};
use crate::proved::der_core::error::{Error, ErrorKind, Result};
use crate::proved::der_core::grammar::FixedTag;
use crate::proved::der_core::length::Length;
use crate::proved::der_core::memory::Memory;

/// Reads a whole slice as the contents octets behind a header, whose tag is the caller's to compare. Ok only if they
/// are those of a value, and of no other: then this value. Err: the first fault, `Overflow` if they are more than
/// `Length::MAX`, or `OutOfMemory` where the type may allocate.
#[inline(always)]
pub fn read_contents<'a, T: DecodeValue<&'a [u8], M> + FixedTag, M: Memory>(
    memory: M,
    contents: &'a [u8],
) -> Result<T> {
    if contents.len() > Length::MAX.to_usize() {
        return Err(Error::new(ErrorKind::Overflow));
    }
    T::read_value(memory, contents)
}

/// Reads the encoding at the front of a slice. Ok only if the slice begins with one, and with no other: then its value,
/// and the slice behind it. Err: the first fault, `Overflow` if the slice is longer than `Length::MAX`, or
/// `OutOfMemory` where the type may allocate.
#[inline(always)]
pub fn read_front<'a, T: Decode<&'a [u8], M>, M: Memory>(
    memory: M,
    bytes: &'a [u8],
) -> Result<(T, &'a [u8])> {
    if bytes.len() > Length::MAX.to_usize() {
        return Err(Error::new(ErrorKind::Overflow));
    }
    T::read_one(memory, bytes)
}
