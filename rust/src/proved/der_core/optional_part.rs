// Made of crates/der_core/src/optional_part.rt by tools/erase/erase.py, and not to be edited.
//! An OPTIONAL part in front of others, which is known by its tag.

use crate::proved::der_core::decode::{DecodeValue, read_optional};
use crate::proved::der_core::encode::{Encode, EncodeValue};
use crate::proved::der_core::error::{Error, ErrorKind, Result};
use crate::proved::der_core::grammar::{Contents, FixedTag};
use crate::proved::der_core::memory::Memory;
use crate::proved::der_core::parts::{DecodeParts, Row};
use crate::proved::der_core::prepend::Prepend;
use crate::proved::der_core::tag::Tag;
use crate::proved::der_core::writer::Writer;

/// An OPTIONAL part that is known by its tag, and the row after it: `OptionalThen<T, (A, B)>`, an OPTIONAL last part, as
/// in `OptionalThen<T, Last<A>>`, or another OPTIONAL part, as in `OptionalThen<T, OptionalThen<U, Last<A>>>`. Where the
/// row may begin with that tag too, no value has contents: reading and writing are `Value` of the tag. An OPTIONAL part
/// may be left out, so a row may also begin as what follows that part does.
pub struct OptionalThen<T, R>(pub Option<T>, pub R);

impl<T: Contents + FixedTag, R: Contents> Contents for OptionalThen<T, R> {}

impl<T: Contents + FixedTag, R: Row> Row for OptionalThen<T, R> {
    #[inline(always)]
    fn may_begin_with(tag: Tag) -> bool {
        T::TAG.octet() == tag.octet() || R::may_begin_with(tag)
    }
}

/// Reads the row after a part with this tag: `Value` of the tag if the row may begin with it too.
#[inline(always)]
fn read_after<'a, R, M: Memory>(memory: M, bytes: &'a [u8], tag: Tag) -> Result<R>
where
    R: DecodeParts<&'a [u8], M> + Row,
{
    if R::may_begin_with(tag) {
        return Err(Error::new(ErrorKind::Value { tag }));
    }
    R::read_parts(memory, bytes)
}

impl<'a, M, T, R> DecodeParts<&'a [u8], M> for OptionalThen<T, R>
where
    M: Memory,
    T: DecodeValue<&'a [u8], M> + FixedTag,
    R: DecodeParts<&'a [u8], M> + Row,
{
    #[inline(always)]
    fn read_parts(memory: M, contents: &'a [u8]) -> Result<OptionalThen<T, R>> {
        let (part, after) = read_optional(memory, contents)?;
        let rest = read_after(memory, after, T::TAG)?;
        Ok(OptionalThen(part, rest))
    }
}

impl<T: EncodeValue + FixedTag, R: EncodeValue + Row> EncodeValue for OptionalThen<T, R> {
    #[inline(always)]
    fn check_value(&self) -> Result<()> {
        if R::may_begin_with(T::TAG) {
            return Err(Error::new(ErrorKind::Value { tag: T::TAG }));
        }
        if let Some(part) = &self.0 {
            part.check()?;
        }
        self.1.check_value()
    }

    #[inline(always)]
    fn prepend_value<W: Prepend>(&self, writer: &mut W) {
        self.1.prepend_value(writer);
        if let Some(part) = &self.0 {
            part.prepend(writer);
        }
    }

    fn append_value<W: Writer>(&self, writer: &mut W) -> Result<()> {
        match &self.0 {
            Some(part) => {
                part.append(writer)?;
                self.1.append_value(writer)
            }
            None => self.1.append_value(writer),
        }
    }
}
