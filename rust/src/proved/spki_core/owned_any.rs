// Made of crates/spki_core/src/owned_any.rt by tools/erase/erase.py, and not to be edited.
//! Encodings of any tag that own their contents.

use crate::rattle_std::prelude::Vec;
use crate::proved::spki_core::any::{AnyParams, AnyRef, AnyValue};
use crate::proved::der_core::{
    Decode, Encode, Encoding, EqualByValue, Error, ErrorKind, Length, NoMemory, Prepend, Reader,
    Result, Tag, TryClone, Writer,
};
use crate::rattle_std::alloc::Global;

/// A tag and contents octets, which are opaque. It owns them.
#[derive(Debug, PartialEq, Eq, Hash)]
pub struct Any {
    tag: Tag,
    contents: Vec<u8>,
}

impl Any {
    /// A copy of these contents, with this tag. `Overflow` exactly if they are longer than `Length::MAX`, else
    /// `OutOfMemory` if there is no memory for them.
    pub(crate) fn new_in(alloc: Global, tag: Tag, contents: &[u8]) -> Result<Any> {
        if contents.len() > Length::MAX.to_usize() {
            return Err(Error::new(ErrorKind::Overflow));
        }
        Any::copy_of(alloc, tag, contents)
    }

    /// The tag and contents, borrowed. `AnyValue` has it too, for code that is generic over its holders.
    #[must_use]
    pub fn as_any_ref(&self) -> AnyRef<'_> {
        match AnyRef::new(self.tag, self.contents.as_slice()) {
            Ok(any) => any,
            Err(_) => unreachable!(),
        }
    }

    /// A copy of the tag and contents. The only error is `OutOfMemory`.
    pub(crate) fn try_clone_in(&self, alloc: Global) -> Result<Any> {
        Any::copy_of(alloc, self.tag, self.contents.as_slice())
    }

    /// Copies the contents.
    fn copy_of(alloc: Global, tag: Tag, contents: &[u8]) -> Result<Any> {
        Ok(Any {
            tag,
            contents: Vec::from_slice(alloc, contents)?,
        })
    }
}

impl Encoding for Any {
    /// True, as any tag may stand in front.
    fn may_start_with(_tag: Tag) -> bool {
        true
    }
}

impl<'a> Decode<&'a [u8], Global> for Any {
    fn read_one(memory: Global, bytes: &'a [u8]) -> Result<(Any, &'a [u8])> {
        let (any, rest) = AnyRef::read_one(NoMemory, bytes)?;
        let copy = Any::copy_of(memory, any.tag(), any.value())?;
        Ok((copy, rest))
    }

    fn decode<R: Reader<&'a [u8]>>(memory: Global, reader: &mut R) -> Result<Any> {
        let any = AnyRef::decode(NoMemory, reader)?;
        match Any::copy_of(memory, any.tag(), any.value()) {
            Ok(any) => Ok(any),
            Err(e) => Err(reader.error(e.kind())),
        }
    }
}

impl Encode for Any {
    #[inline(always)]
    fn check(&self) -> Result<()> {
        Ok(())
    }

    #[inline(always)]
    fn prepend<W: Prepend>(&self, writer: &mut W) {
        self.as_any_ref().prepend(writer);
    }

    fn append<W: Writer>(&self, writer: &mut W) -> Result<()> {
        self.as_any_ref().append(writer)
    }
}

impl EqualByValue for Any {}

impl AnyValue for Any {
    fn as_any_ref(&self) -> AnyRef<'_> {
        Any::as_any_ref(self)
    }
}

impl AnyParams<Global> for Any {
    fn empty(memory: Global, tag: Tag) -> Any {
        Any {
            tag,
            contents: Vec::new_in(memory),
        }
    }
}

impl TryClone for Any {
    fn try_clone_in(&self, alloc: Global) -> Result<Any> {
        self.try_clone_in(alloc)
    }
}
