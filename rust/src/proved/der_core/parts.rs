// Made of crates/der_core/src/parts.rt by tools/erase/erase.py, and not to be edited.
//! Parts of contents in a row, as a type: a nested pair that ends with `()`, as `(A, (B, ()))`, or with an OPTIONAL last
//! part, as `(A, Last<B>)`. A row is written as contents, `(Borrowed(&self.a), (Borrowed(&self.b), ())).value_len()`.

use crate::proved::der_core::decode::Decode;
use crate::proved::der_core::encode::{Encode, EncodeValue};
use crate::proved::der_core::error::{Error, ErrorKind, Result};
use crate::proved::der_core::grammar::{Contents, Encoding};
use crate::proved::der_core::memory::Memory;
use crate::proved::der_core::prepend::Prepend;
use crate::proved::der_core::reader::Octets;
use crate::proved::der_core::tag::Tag;
use crate::proved::der_core::writer::Writer;

/// Parts that are read from contents. Of these the type's `read` gives the value, or the kind of the first fault. Calls
/// return that, or `OutOfMemory` where the type may allocate.
pub trait DecodeParts<B: Octets, M: Memory>: Contents + Sized {
    /// The value of these contents octets, at most `Length::MAX`. Err: the first fault, or `OutOfMemory`.
    fn read_parts(memory: M, contents: B) -> Result<Self>;
}

/// A row that is asked which tags it may begin with, so that an OPTIONAL part can stand in front of it.
pub trait Row: Contents {
    /// False only if no row of the type begins with the octet of the tag.
    fn may_begin_with(tag: Tag) -> bool;
}

impl Contents for () {}

impl<A: Encoding, B: Contents> Contents for (A, B) {}

impl Row for () {
    #[inline(always)]
    fn may_begin_with(_tag: Tag) -> bool {
        false
    }
}

impl<A: Encoding, B: Contents> Row for (A, B) {
    #[inline(always)]
    fn may_begin_with(tag: Tag) -> bool {
        A::may_start_with(tag)
    }
}

impl<'a, M: Memory> DecodeParts<&'a [u8], M> for () {
    #[inline(always)]
    fn read_parts(_memory: M, contents: &'a [u8]) -> Result<()> {
        if contents.is_empty() {
            Ok(())
        } else {
            Err(Error::new(ErrorKind::TrailingData))
        }
    }
}

impl<'a, M: Memory, A: Decode<&'a [u8], M>, B: DecodeParts<&'a [u8], M>> DecodeParts<&'a [u8], M>
    for (A, B) {
    #[inline(always)]
    fn read_parts(memory: M, contents: &'a [u8]) -> Result<(A, B)> {
        let (first, behind) = A::read_one(memory, contents)?;
        let rest = B::read_parts(memory, behind)?;
        Ok((first, rest))
    }
}

impl EncodeValue for () {
    #[inline(always)]
    fn check_value(&self) -> Result<()> {
        Ok(())
    }

    #[inline(always)]
    fn prepend_value<W: Prepend>(&self, _writer: &mut W) {}

    #[inline(always)]
    fn append_value<W: Writer>(&self, _writer: &mut W) -> Result<()> {
        Ok(())
    }
}

impl<A: Encode, B: EncodeValue> EncodeValue for (A, B) {
    #[inline(always)]
    fn check_value(&self) -> Result<()> {
        self.0.check()?;
        self.1.check_value()
    }

    #[inline(always)]
    fn prepend_value<W: Prepend>(&self, writer: &mut W) {
        self.1.prepend_value(writer);
        self.0.prepend(writer);
    }

    #[inline(always)]
    fn append_value<W: Writer>(&self, writer: &mut W) -> Result<()> {
        self.0.append(writer)?;
        self.1.append_value(writer)
    }
}
