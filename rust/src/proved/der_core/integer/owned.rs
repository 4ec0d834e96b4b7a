// Made of crates/der_core/src/integer/owned.rt by tools/erase/erase.py, and not to be edited.
//! Unsigned numbers that own their bytes.

use crate::rattle_std::prelude::Vec;
use super::uint::{AsUintRef, UintEncoding, UintRef};
use crate::proved::der_core::decode::DecodeValue;
use crate::proved::der_core::encode::EncodeValue;
use crate::proved::der_core::error::{ErrorKind, Result};
use crate::proved::der_core::grammar::{Contents, EqualByValue, IntegerTag, TaggedBy};
use crate::proved::der_core::length::Length;
use crate::proved::der_core::memory::copy_of;
use crate::proved::der_core::prepend::Prepend;
use crate::proved::der_core::try_clone::TryClone;
use crate::proved::der_core::writer::Writer;
use crate::rattle_std::alloc::Global;

/// An unsigned number as big-endian bytes: no leading zeros, and one zero byte for 0. It owns them.
#[derive(PartialEq, Eq, Hash)]
pub struct Uint {
    bytes: Vec<u8>,
}

impl Uint {
    /// The number with these big-endian bytes, which may have leading zeros. `Length` of INTEGER exactly if there is
    /// no byte, `Overflow` exactly if more than `Length::MAX` bytes remain without leading zeros. `OutOfMemory` is
    /// returned only for bytes that are a number.
    pub(crate) fn new_in(alloc: Global, bytes: &[u8]) -> Result<Uint> {
        Uint::copy(alloc, UintRef::new(bytes)?)
    }

    /// The bytes, most significant first: at least one, at most `Length::MAX`, and no needless zero in front.
    #[must_use]
    pub fn as_bytes(&self) -> &[u8] {
        self.bytes.as_slice()
    }

    /// The same number, or `OutOfMemory`.
    pub(crate) fn try_clone_in(&self, alloc: Global) -> Result<Uint> {
        Uint::copy(alloc, self.as_uint_ref())
    }

    /// Copies a number.
    fn copy(alloc: Global, number: UintRef<'_>) -> Result<Uint> {
        Ok(Uint {
            bytes: copy_of(alloc, number.as_bytes())?,
        })
    }
}

impl AsUintRef for Uint {
    fn as_uint_ref(&self) -> UintRef<'_> {
        UintRef::over(self.bytes.as_slice())
    }
}

impl UintEncoding for Uint {}

impl TryClone for Uint {
    fn try_clone_in(&self, alloc: Global) -> Result<Uint> {
        self.try_clone_in(alloc)
    }
}

impl Contents for Uint {}

impl TaggedBy for Uint {
    type Marker = IntegerTag;
}

impl EqualByValue for Uint {}

impl<'a> DecodeValue<&'a [u8], Global> for Uint {
    fn read_value(memory: Global, contents: &'a [u8]) -> Result<Uint> {
        let number = UintRef::read_value(memory, contents)?;
        Uint::copy(memory, number)
    }
}

impl EncodeValue for Uint {
    #[inline(always)]
    fn check_value(&self) -> Result<()> {
        Ok(())
    }

    #[inline(always)]
    fn prepend_value<W: Prepend>(&self, writer: &mut W) {
        self.as_uint_ref().prepend_value(writer);
    }

    fn append_value<W: Writer>(&self, writer: &mut W) -> Result<()> {
        self.as_uint_ref().append_value(writer)
    }
}
