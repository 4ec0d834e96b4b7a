// Made of crates/der_core/src/containing.rt by tools/erase/erase.py, and not to be edited.
//! Contents octets that are one encoding.

use crate::proved::der_core::decode::{Decode, DecodeValue};
use crate::proved::der_core::encode::{Encode, EncodeValue};
use crate::proved::der_core::error::Result;
use crate::proved::der_core::grammar::{Contents, Encoding};
use crate::proved::der_core::memory::Memory;
use crate::proved::der_core::prepend::Prepend;
use crate::proved::der_core::writer::Writer;

/// Contents octets that are one encoding of a `T`, as those of `BIT STRING (CONTAINING T)`. `TrailingData` if octets
/// follow it.
#[derive(Clone, Copy, Debug, PartialEq, Eq, Hash)]
pub struct Containing<T>(pub T);

impl<T: Encoding> Contents for Containing<T> {}

impl<'a, M: Memory, T: Decode<&'a [u8], M>> DecodeValue<&'a [u8], M> for Containing<T> {
    #[inline(always)]
    fn read_value(memory: M, contents: &'a [u8]) -> Result<Containing<T>> {
        let value = T::read_alone(memory, contents)?;
        Ok(Containing(value))
    }
}

impl<T: Encode> EncodeValue for Containing<T> {
    #[inline(always)]
    fn check_value(&self) -> Result<()> {
        self.0.check()
    }

    #[inline(always)]
    fn prepend_value<W: Prepend>(&self, writer: &mut W) {
        self.0.prepend(writer);
    }

    fn append_value<W: Writer>(&self, writer: &mut W) -> Result<()> {
        self.0.append(writer)
    }
}
