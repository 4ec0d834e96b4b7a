// Made of crates/der_core/src/decode.rt by tools/erase/erase.py, and not to be edited.
//! Reading of values.

use crate::proved::der_core::error::{Error, ErrorKind, Result};
use crate::proved::der_core::grammar::{Contents, Encoding, FixedTag};
use crate::proved::der_core::header::Header;
use crate::proved::der_core::length::Length;
use crate::proved::der_core::memory::{Memory, NoMemory};
use crate::proved::der_core::reader::{Octets, Reader, reject_if_failed};
use crate::proved::der_core::split::{begins_with, split_encoding};
use crate::proved::der_core::tag::Tag;

/// A type whose values are read from their contents octets. Of these the type's `read` gives the value, or the kind of
/// the first fault. Calls return that, or `OutOfMemory` where the type may allocate.
pub trait DecodeValue<B: Octets, M: Memory>: Contents + Sized {
    /// The value of these contents octets, at most `Length::MAX`. Err: the first fault, or `OutOfMemory`.
    fn read_value(memory: M, contents: B) -> Result<Self>;

    /// Reads all that is left as the contents octets of a value. Exactly `header.length` bytes are left.
    #[inline(always)]
    fn decode_value<R: Reader<B>>(memory: M, reader: &mut R, header: Header) -> Result<Self> {
        let contents = reader.read_slice(header.length)?;
        match Self::read_value(memory, contents) {
            Ok(value) => Ok(value),
            Err(e) => Err(reader.error(e.kind())),
        }
    }
}

/// A type whose values are read from their encodings. Of the bytes the type's `read_front` gives the value in front,
/// or the kind of the first fault. Calls return that, or `OutOfMemory` where the type may allocate.
pub trait Decode<B: Octets, M: Memory>: Encoding + Sized {
    /// The value of the encoding in front, and what follows it. Err: the first fault, or `OutOfMemory`.
    fn read_one(memory: M, bytes: B) -> Result<(Self, B)>;

    /// Reads the encoding at the front of what is left. Err: the first fault, or `OutOfMemory`.
    fn decode<R: Reader<B>>(memory: M, reader: &mut R) -> Result<Self>;

    /// Reads all of the bytes as one encoding. Err: the first fault, `TrailingData` if bytes follow, or `OutOfMemory`.
    #[inline(always)]
    fn read_alone(memory: M, bytes: B) -> Result<Self> {
        let (value, rest) = Self::read_one(memory, bytes)?;
        if rest.octet_count() > 0 {
            return Err(Error::new(ErrorKind::TrailingData));
        }
        Ok(value)
    }

    /// Reads a whole slice. Ok only if it encodes a value of the type, and no other: then this value. Err: the first
    /// fault, `Overflow` if it is longer than `Length::MAX`, `TrailingData` if bytes follow, or `OutOfMemory`.
    #[inline(always)]
    fn from_der(memory: M, bytes: B) -> Result<Self> {
        if bytes.octet_count() > Length::MAX.to_usize() {
            return Err(Error::new(ErrorKind::Overflow));
        }
        Self::read_alone(memory, bytes)
    }
}

impl<'a, M: Memory, T: DecodeValue<&'a [u8], M> + FixedTag> Decode<&'a [u8], M> for T {
    #[inline(always)]
    fn read_one(memory: M, bytes: &'a [u8]) -> Result<(T, &'a [u8])> {
        read_tagged(memory, bytes, T::TAG)
    }

    #[inline(always)]
    fn decode<R: Reader<&'a [u8]>>(memory: M, reader: &mut R) -> Result<T> {
        decode_tagged(memory, reader, T::TAG)
    }
}

/// The value of the encoding with this tag in front, and what follows it. Err: the first fault, or `OutOfMemory`.
#[inline(always)]
pub fn read_tagged<'a, T: DecodeValue<&'a [u8], M>, M: Memory>(
    memory: M,
    bytes: &'a [u8],
    tag: Tag,
) -> Result<(T, &'a [u8])> {
    let (contents, rest) = split_encoding(bytes, tag)?;
    let value = T::read_value(memory, contents)?;
    Ok((value, rest))
}

/// The encoding in front, if the first octet is that of the type's tag, and what follows it. Err: the first fault, or
/// `OutOfMemory`.
#[inline(always)]
pub fn read_optional<'a, T: DecodeValue<&'a [u8], M> + FixedTag, M: Memory>(
    memory: M,
    bytes: &'a [u8],
) -> Result<(Option<T>, &'a [u8])> {
    if !begins_with(bytes, T::TAG) {
        return Ok((None, bytes));
    }
    let (value, rest) = T::read_one(memory, bytes)?;
    Ok((Some(value), rest))
}

/// Reads a whole slice without memory. Ok exactly if it encodes a `T`: then this value. Err: the first fault.
#[inline(always)]
pub fn read_borrowed<'a, T: Decode<&'a [u8], NoMemory>>(bytes: &'a [u8]) -> Result<T> {
    T::from_der(NoMemory, bytes)
}

/// Reads a whole slice of a type that may take memory. Ok only if it encodes a value of the type, and no other: then
/// this value. Err: the first fault, or `OutOfMemory` where the type may allocate.
#[inline(always)]
pub fn read_owned<'a, T: Decode<&'a [u8], M>, M: Memory>(memory: M, bytes: &'a [u8]) -> Result<T> {
    T::from_der(memory, bytes)
}

/// Reads the encoding with this tag at the front of what is left. Err: the first fault, or `OutOfMemory`.
pub fn decode_tagged<'a, T: DecodeValue<&'a [u8], M>, M: Memory, R: Reader<&'a [u8]>>(
    memory: M,
    reader: &mut R,
    tag: Tag,
) -> Result<T> {
    let header = Header::decode(reader)?;
    if header.tag != tag {
        return Err(reader.error(ErrorKind::TagUnexpected {
            expected: tag,
            actual: header.tag,
        }));
    }
    let contents = reader.read_slice(header.length)?;
    match T::read_value(memory, contents) {
        Ok(value) => Ok(value),
        Err(e) => Err(reader.error(e.kind())),
    }
}

/// Whether the next octet is that of the tag. Nothing is read. `Failed` on a reader that has failed.
#[inline(always)]
pub fn is_tag_next<'a, R: Reader<&'a [u8]>>(reader: &mut R, tag: Tag) -> Result<bool> {
    reject_if_failed(reader)?;
    Ok(reader.peek_octet() == Some(tag.octet()))
}

/// Reads an encoding if the next octet is the type's tag, else returns `None` and reads nothing. `Failed` on a reader
/// that has failed.
pub fn decode_optional<'a, T: DecodeValue<&'a [u8], M> + FixedTag, M: Memory, R: Reader<&'a [u8]>>(
    memory: M,
    reader: &mut R,
) -> Result<Option<T>> {
    if !is_tag_next(reader, T::TAG)? {
        return Ok(None);
    }
    let value = T::decode(memory, reader)?;
    Ok(Some(value))
}
