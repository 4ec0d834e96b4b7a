// Made of crates/der_core/src/tagged.rt by tools/erase/erase.py, and not to be edited.
//! Values under a tag of one's own (X.690 8.14).

use crate::proved::der_core::containing::Containing;
use crate::proved::der_core::decode::DecodeValue;
use crate::proved::der_core::encode::EncodeValue;
use crate::proved::der_core::error::Result;
use crate::proved::der_core::grammar::{Contents, TagMarker, TaggedBy};
use crate::proved::der_core::memory::Memory;
use crate::proved::der_core::prepend::Prepend;
use crate::proved::der_core::tag::Tag;
use crate::proved::der_core::writer::Writer;
use crate::rattle_std::marker::PhantomData;

/// The contents octets of a `C` under the tag of a marker, as in `[n] IMPLICIT` (8.14.3).
#[derive(Clone, Copy, Debug, PartialEq, Eq, Hash)]
pub struct Tagged<M, C> {
    /// What has these contents octets.
    pub contents: C,
    marker: PhantomData<M>,
}

/// `[n] EXPLICIT` (8.14.2): the contents octets are one encoding of a `T`.
pub type Explicit<M, T> = Tagged<M, Containing<T>>;

impl<M, C> Tagged<M, C> {
    /// These contents under the tag.
    #[inline(always)]
    #[must_use]
    pub fn new(contents: C) -> Tagged<M, C> {
        Tagged {
            contents,
            marker: PhantomData,
        }
    }
}

impl<M, C: Contents> Contents for Tagged<M, C> {}

impl<M: TagMarker, C> TaggedBy for Tagged<M, C> {
    type Marker = M;
}

impl<'a, K: TagMarker, M: Memory, C: DecodeValue<&'a [u8], M>> DecodeValue<&'a [u8], M>
    for Tagged<K, C> {
    #[inline(always)]
    fn read_value(memory: M, contents: &'a [u8]) -> Result<Tagged<K, C>> {
        let contents = C::read_value(memory, contents)?;
        Ok(Tagged::new(contents))
    }
}

impl<M: TagMarker, C: EncodeValue> EncodeValue for Tagged<M, C> {
    #[inline(always)]
    fn check_value(&self) -> Result<()> {
        self.contents.check_value()
    }

    #[inline(always)]
    fn prepend_value<W: Prepend>(&self, writer: &mut W) {
        self.contents.prepend_value(writer);
    }

    fn append_value<W: Writer>(&self, writer: &mut W) -> Result<()> {
        self.contents.append_value(writer)
    }
}
