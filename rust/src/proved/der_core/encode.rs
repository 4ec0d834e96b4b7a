// Made of crates/der_core/src/encode.rt by tools/erase/erase.py, and not to be edited.
//! Writing of values.

use crate::proved::der_core::back_writer::BackWriter;
use crate::proved::der_core::counter::Counter;
use crate::proved::der_core::error::{Error, ErrorKind, Result};
use crate::proved::der_core::grammar::{Contents, Encoding, FixedTag};
use crate::proved::der_core::header::Header;
use crate::proved::der_core::length::Length;
use crate::proved::der_core::prepend::Prepend;
use crate::proved::der_core::writer::Writer;

/// A type whose values are written as contents octets.
pub trait EncodeValue: Contents {
    /// Whether the value has contents: `Value` exactly if it has none.
    fn check_value(&self) -> Result<()>;

    /// Writes the contents in front of what was received, or counts them. There have to be some, and room for them, and
    /// their length has to fit.
    fn prepend_value<W: Prepend>(&self, writer: &mut W);

    /// Appends the contents. There have to be some, within `Length::MAX`. The only error is `NoRoom`, exactly if the
    /// writer has too little room, after a beginning of them.
    fn append_value<W: Writer>(&self, writer: &mut W) -> Result<()>;

    /// The length of the contents that are written. `Value` exactly if the value has none, else `Overflow` exactly if
    /// they are longer than `Length::MAX`.
    #[inline(always)]
    fn value_len(&self) -> Result<Length> {
        self.check_value()?;
        let mut counter = Counter::new();
        self.prepend_value(&mut counter);
        counter.length()
    }

    /// Appends the contents: `Value` and `Overflow`, as of `value_len`, before any octet, `NoRoom` after a beginning.
    fn encode_value<W: Writer>(&self, writer: &mut W) -> Result<()> {
        self.value_len()?;
        self.append_value(writer)
    }
}

/// A type whose values are written as encodings. Its calls return these errors exactly in these cases:
/// - `Value`: the value has no encoding, of any length. The tag is one that `refused` names.
/// - `Overflow`: it has encodings, but none within `Length::MAX`.
/// - `NoRoom`: its shortest encoding is longer than the slice, or than the room of the writer.
pub trait Encode: Encoding {
    /// Whether the value has an encoding: `Value` exactly if it has none.
    fn check(&self) -> Result<()>;

    /// Writes the shortest encoding in front of what was received, or counts it. There has to be one, and room for it, and
    /// its length has to fit.
    fn prepend<W: Prepend>(&self, writer: &mut W);

    /// Appends the shortest encoding. There has to be one within `Length::MAX`. The only error is `NoRoom`, exactly if
    /// the writer has too little room, after a beginning of it.
    fn append<W: Writer>(&self, writer: &mut W) -> Result<()>;

    /// The length of the shortest encoding; `Value` and `Overflow` exactly if they say so.
    #[inline(always)]
    fn encoded_len(&self) -> Result<Length>
    where
        Self: Sized,
    {
        counted_len(self)
    }

    /// Appends the shortest encoding. `Value` and `Overflow` come before any octet is written, `NoRoom` after a
    /// beginning of them. A writer without a limit gives no `NoRoom`.
    fn encode<W: Writer>(&self, writer: &mut W) -> Result<()>
    where
        Self: Sized,
    {
        append_counted(self, writer)
    }

    /// Writes the shortest encoding of the value to the front of a slice. Ok(n): the first n bytes are the encoding,
    /// and those behind them are as they were. Err: the slice is as it was, and the error says exactly why.
    fn encode_into(&self, out: &mut [u8]) -> Result<usize>
    where
        Self: Sized,
    {
        let length = self.encoded_len()?.to_usize();
        if out.len() < length {
            return Err(Error::new(ErrorKind::NoRoom));
        }
        let (region, _) = out.split_at_mut(length);
        let mut writer = BackWriter::new(region);
        self.prepend(&mut writer);
        Ok(length)
    }

    /// Writes the shortest encoding of the value to the front of a slice. Ok: that part, which is no longer than the
    /// slice. The bytes behind it are as they were. Err: all of the slice is as it was, and the error says exactly
    /// why. A caller that needs in a proof what the slice holds calls `encode_into`.
    fn encode_to_slice<'b>(&self, out: &'b mut [u8]) -> Result<&'b [u8]>
    where
        Self: Sized,
    {
        let written = self.encode_into(out);
        front(out, written)
    }
}

/// The written front of a slice, or why nothing was written.
fn front<'b>(out: &'b [u8], written: Result<usize>) -> Result<&'b [u8]> {
    match written {
        Ok(length) => Ok(&out[..length]),
        Err(error) => Err(error),
    }
}

/// The length of the shortest encoding.
#[inline(always)]
fn counted_len<T: Encode>(value: &T) -> Result<Length> {
    value.check()?;
    let mut counter = Counter::new();
    value.prepend(&mut counter);
    counter.length()
}

/// Appends the shortest encoding, where it is within `Length::MAX`.
fn append_counted<T: Encode, W: Writer>(value: &T, writer: &mut W) -> Result<()> {
    counted_len(value)?;
    value.append(writer)
}

impl<T: EncodeValue + FixedTag> Encode for T {
    #[inline(always)]
    fn check(&self) -> Result<()> {
        self.check_value()
    }

    #[inline(always)]
    fn prepend<W: Prepend>(&self, writer: &mut W) {
        let before = writer.filled_len();
        self.prepend_value(writer);
        writer.prepend_header(T::TAG, before);
    }

    fn append<W: Writer>(&self, writer: &mut W) -> Result<()> {
        let mut counter = Counter::new();
        self.prepend_value(&mut counter);
        let header = Header {
            tag: T::TAG,
            length: Length::of(counter.filled_len() as usize),
        };
        writer.write(&header.to_bytes())?;
        self.append_value(writer)
    }
}
