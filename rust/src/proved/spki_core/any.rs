// Made of crates/spki_core/src/any.rt by tools/erase/erase.py, and not to be edited.
//! Encodings of any tag.

use crate::proved::spki_core::wide_tag::WideTag;
use crate::proved::der_core::{
    Decode, DecodeValue, Encode, Encoding, EqualByValue, Error, ErrorKind, FixedTag, Header,
    Length, Memory, Prepend, Reader, Result, Tag, TryClone, Writer, read_contents, split_encoding,
};
use crate::rattle_std::alloc::Global;
use crate::rattle_std::fmt;

/// A tag and contents octets, which are opaque. It borrows them.
#[derive(Clone, Copy, Debug, PartialEq, Eq, Hash)]
pub struct AnyRef<'a> {
    tag: WideTag,
    contents: &'a [u8],
}

impl<'a> AnyRef<'a> {
    /// This tag with these contents.
    /// # Errors
    /// `Overflow` exactly if they are longer than `Length::MAX`.
    pub fn new(tag: Tag, contents: &'a [u8]) -> Result<AnyRef<'a>> {
        if contents.len() > Length::MAX.to_usize() {
            return Err(Error::new(ErrorKind::Overflow));
        }
        Ok(AnyRef::over(tag, contents))
    }

    /// This tag with these contents.
    #[inline(always)]
    fn over(tag: Tag, contents: &'a [u8]) -> AnyRef<'a> {
        AnyRef {
            tag: WideTag::of(tag),
            contents,
        }
    }

    /// NULL (X.690 8.8), which has no contents octets.
    pub(crate) const fn null() -> AnyRef<'static> {
        AnyRef {
            tag: WideTag::of(Tag::NULL),
            contents: crate::rattle_std::NO_OCTETS,
        }
    }

    /// The tag, of any class and number.
    #[must_use]
    pub fn tag(&self) -> Tag {
        self.tag.tag()
    }

    /// The contents octets. They are at most `Length::MAX`.
    #[must_use]
    pub fn value(&self) -> &'a [u8] {
        self.contents
    }

    /// Decodes all of the contents octets as those of a `T`. Ok only if the tag is the type's and they are those of a
    /// value: then this value. Err: `TagUnexpected` of another tag, else the first fault of the contents, or
    /// `OutOfMemory` where the type may allocate. Any other kind than `OutOfMemory` means that there is no value.
    pub(crate) fn decode_as_in<T: DecodeValue<&'a [u8], M> + FixedTag, M: Memory>(
        self,
        memory: M,
    ) -> Result<T> {
        if self.tag() != T::TAG {
            return Err(Error::new(ErrorKind::TagUnexpected {
                expected: T::TAG,
                actual: self.tag(),
            }));
        }
        read_contents(memory, self.contents)
    }

    /// Whether it is this tag without contents octets.
    #[inline(always)]
    pub(crate) fn is_alone(&self, tag: Tag) -> bool {
        self.tag() == tag && self.contents.is_empty()
    }

    fn header(&self) -> Header {
        Header {
            tag: self.tag(),
            length: Length::of(self.contents.len()),
        }
    }
}

impl Encoding for AnyRef<'_> {
    /// True, as any tag may stand in front.
    fn may_start_with(_tag: Tag) -> bool {
        true
    }
}

impl<'a, M: Memory> Decode<&'a [u8], M> for AnyRef<'a> {
    #[inline(always)]
    fn read_one(_memory: M, bytes: &'a [u8]) -> Result<(AnyRef<'a>, &'a [u8])> {
        let tag = first_tag(bytes)?;
        let (contents, rest) = split_encoding(bytes, tag)?;
        Ok((AnyRef::over(tag, contents), rest))
    }

    fn decode<R: Reader<&'a [u8]>>(_memory: M, reader: &mut R) -> Result<AnyRef<'a>> {
        let header = Header::decode(reader)?;
        let contents = reader.read_slice(header.length)?;
        let tag = WideTag::of(header.tag);
        Ok(AnyRef { tag, contents })
    }
}

/// The tag in front. `Incomplete` of no byte, `TagUnknown` of an octet that isn't supported.
#[inline(always)]
fn first_tag(bytes: &[u8]) -> Result<Tag> {
    match bytes {
        [octet, ..] => Tag::from_octet(*octet),
        [] => Err(Error::new(ErrorKind::Incomplete)),
    }
}

impl Encode for AnyRef<'_> {
    #[inline(always)]
    fn check(&self) -> Result<()> {
        Ok(())
    }

    #[inline(always)]
    fn prepend<W: Prepend>(&self, writer: &mut W) {
        let before = writer.filled_len();
        writer.prepend(self.contents);
        writer.prepend_header(self.tag(), before);
    }

    fn append<W: Writer>(&self, writer: &mut W) -> Result<()> {
        writer.write(&self.header().to_bytes())?;
        writer.write(self.contents)
    }
}

impl<'a> TryClone for AnyRef<'a> {
    /// The same tag, over the same contents. Never `OutOfMemory`.
    fn try_clone_in(&self, _alloc: Global) -> Result<AnyRef<'a>> {
        Ok(*self)
    }
}

/// A type that holds a tag with contents octets, and is encoded as these.
pub trait AnyValue: EqualByValue + Encode {
    /// The tag and contents, borrowed.
    fn as_any_ref(&self) -> AnyRef<'_>;
}

impl EqualByValue for AnyRef<'_> {}

impl AnyValue for AnyRef<'_> {
    fn as_any_ref(&self) -> AnyRef<'_> {
        *self
    }
}

/// Parameters that are encodings of any tag, and can be made without allocating.
pub trait AnyParams<M: Memory>: AnyValue + Sized {
    /// The tag without contents octets.
    fn empty(memory: M, tag: Tag) -> Self;
}

impl<'a, M: Memory> AnyParams<M> for AnyRef<'a> {
    fn empty(_memory: M, tag: Tag) -> AnyRef<'a> {
        let tag = WideTag::of(tag);
        AnyRef { tag, contents: crate::rattle_std::NO_OCTETS }
    }
}
