// Made of crates/der_core/src/expected.rt by tools/erase/erase.py, and not to be edited.
//! An INTEGER that has to be one number, such as the version of a structure that has only one.

use crate::proved::der_core::decode::DecodeValue;
use crate::proved::der_core::encode::EncodeValue;
use crate::proved::der_core::error::{Error, ErrorKind, Result};
use crate::proved::der_core::grammar::{Contents, IntegerTag, TaggedBy};
use crate::proved::der_core::memory::Memory;
use crate::proved::der_core::prepend::Prepend;
use crate::proved::der_core::tag::Tag;
use crate::proved::der_core::writer::Writer;

/// The INTEGER `N`. Another number is `Value` of INTEGER.
#[derive(Clone, Copy, Debug)]
pub struct Expected<const N: u8>;

impl<const N: u8> Contents for Expected<N> {}

impl<const N: u8> TaggedBy for Expected<N> {
    type Marker = IntegerTag;
}

impl<'a, M: Memory, const N: u8> DecodeValue<&'a [u8], M> for Expected<N> {
    #[inline(always)]
    fn read_value(memory: M, contents: &'a [u8]) -> Result<Expected<N>> {
        if u8::read_value(memory, contents)? != N {
            return Err(Error::new(ErrorKind::Value { tag: Tag::INTEGER }));
        }
        Ok(Expected)
    }
}

impl<const N: u8> EncodeValue for Expected<N> {
    #[inline(always)]
    fn check_value(&self) -> Result<()> {
        Ok(())
    }

    #[inline(always)]
    fn prepend_value<W: Prepend>(&self, writer: &mut W) {
        N.prepend_value(writer);
    }

    fn append_value<W: Writer>(&self, writer: &mut W) -> Result<()> {
        N.append_value(writer)
    }
}
