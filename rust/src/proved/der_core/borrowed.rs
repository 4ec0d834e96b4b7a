// Made of crates/der_core/src/borrowed.rt by tools/erase/erase.py, and not to be edited.
//! Borrowed values.

use crate::proved::der_core::encode::Encode;
use crate::proved::der_core::error::Result;
use crate::proved::der_core::grammar::Encoding;
use crate::proved::der_core::prepend::Prepend;
use crate::proved::der_core::tag::Tag;
use crate::proved::der_core::writer::Writer;

/// A borrowed value, which is encoded as the value itself.
pub struct Borrowed<'b, T>(pub &'b T);

impl<'b, T: Encoding> Encoding for Borrowed<'b, T> {
    #[inline(always)]
    fn may_start_with(tag: Tag) -> bool {
        T::may_start_with(tag)
    }
}

impl<'b, T: Encode> Encode for Borrowed<'b, T> {
    #[inline(always)]
    fn check(&self) -> Result<()> {
        self.0.check()
    }

    #[inline(always)]
    fn prepend<W: Prepend>(&self, writer: &mut W) {
        self.0.prepend(writer);
    }

    fn append<W: Writer>(&self, writer: &mut W) -> Result<()> {
        self.0.append(writer)
    }
}
