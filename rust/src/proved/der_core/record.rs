// Made of crates/der_core/src/record.rt by tools/erase/erase.py, and not to be edited.
//! Records of parts, mostly SEQUENCEs: a type that names its parts is read and written with no proof of its own.

use crate::proved::der_core::decode::DecodeValue;
use crate::proved::der_core::encode::EncodeValue;
use crate::proved::der_core::error::Result;
use crate::proved::der_core::grammar::Contents;
use crate::proved::der_core::memory::Memory;
use crate::proved::der_core::parts::DecodeParts;
use crate::proved::der_core::prepend::Prepend;
use crate::proved::der_core::tag::Tag;
use crate::proved::der_core::writer::Writer;

/// A type whose contents are a row of parts.
pub trait InParts: Contents + Sized {
    /// The row.
    type Parts: Contents;

    /// The value with these parts.
    fn from_parts(parts: Self::Parts) -> Self;
}

impl<'a, M: Memory, T: InParts> DecodeValue<&'a [u8], M> for T
where
    T::Parts: DecodeParts<&'a [u8], M>,
{
    #[inline(always)]
    fn read_value(memory: M, contents: &'a [u8]) -> Result<T> {
        let parts = T::Parts::read_parts(memory, contents)?;
        Ok(T::from_parts(parts))
    }
}

/// What is done to a row of parts that are written.
pub trait RowOperation: Sized {
    /// What it returns.
    type Output;

    /// Does it.
    fn apply<R: EncodeValue>(&mut self, row: &R) -> Self::Output;
}

/// Finds out whether the row has contents.
struct CheckRow;

impl RowOperation for CheckRow {
    type Output = Result<()>;

    #[inline(always)]
    fn apply<R: EncodeValue>(&mut self, row: &R) -> Result<()> {
        row.check_value()
    }
}

/// Writes the row in front of what was received, or counts it.
struct PrependRow<'w, W> {
    writer: &'w mut W,
}

impl<'w, W: Prepend> RowOperation for PrependRow<'w, W> {
    type Output = ();

    #[inline(always)]
    fn apply<R: EncodeValue>(&mut self, row: &R) {
        row.prepend_value(self.writer);
    }
}

/// Appends the row.
struct AppendRow<'w, W> {
    writer: &'w mut W,
}

impl<'w, W: Writer> RowOperation for AppendRow<'w, W> {
    type Output = Result<()>;

    #[inline(always)]
    fn apply<R: EncodeValue>(&mut self, row: &R) -> Result<()> {
        row.append_value(self.writer)
    }
}

/// A type whose contents are written as a row of parts.
pub trait EncodeInParts: InParts {
    /// Does this to the row of what is written, whose parts are borrowed. It has at most seven parts: of eight the last
    /// four are one, whose type is written in parts too.
    fn with_row<O: RowOperation>(&self, operation: &mut O) -> O::Output;
}

impl<T: EncodeInParts> EncodeValue for T {
    #[inline(always)]
    fn check_value(&self) -> Result<()> {
        self.with_row(&mut CheckRow)
    }

    #[inline(always)]
    fn prepend_value<W: Prepend>(&self, writer: &mut W) {
        let mut operation = PrependRow { writer };
        self.with_row(&mut operation);
    }

    fn append_value<W: Writer>(&self, writer: &mut W) -> Result<()> {
        let mut operation = AppendRow { writer };
        self.with_row(&mut operation)
    }
}

/// A type that means its parts: their row is all that there is to say of it, and the tag around them.
pub trait Record: Sized {
    /// The row.
    type Fields: Contents;

    /// The record of these fields.
    fn from_fields(row: Self::Fields) -> Self;
}

impl<T: Record> Contents for T {}

impl<T: Record> InParts for T {
    type Parts = T::Fields;

    #[inline(always)]
    fn from_parts(parts: T::Fields) -> T {
        T::from_fields(parts)
    }
}
