// Made of crates/spki_core/src/context_specific.rt by tools/erase/erase.py, and not to be edited.
//! Values inside explicit context-specific tags (X.690 8.14.2).

use crate::proved::der_core::{
    Containing, Counter, Decode, Encode, Encoding, Header, Length, Memory, Prepend, Reader, Result,
    Tag, TagNumber, Writer, decode_tagged, is_tag_next,
};

/// A borrowed value that is written inside the tag `[tag_number]`.
#[derive(Clone, Copy)]
pub struct ContextSpecificRef<'b, T> {
    /// The number of the tag.
    pub tag_number: TagNumber,
    /// The value. Its encoding is the contents of the tag.
    pub value: &'b T,
}

impl<'b, T> ContextSpecificRef<'b, T> {
    fn tag(&self) -> Tag {
        Tag::context(self.tag_number)
    }
}

impl<'b, T: Encoding> Encoding for ContextSpecificRef<'b, T> {
    /// True, as fields of any number may be meant.
    fn may_start_with(_tag: Tag) -> bool {
        true
    }
}

impl<'b, T: Encode> Encode for ContextSpecificRef<'b, T> {
    #[inline(always)]
    fn check(&self) -> Result<()> {
        self.value.check()
    }

    #[inline(always)]
    fn prepend<W: Prepend>(&self, writer: &mut W) {
        let before = writer.filled_len();
        self.value.prepend(writer);
        writer.prepend_header(self.tag(), before);
    }

    fn append<W: Writer>(&self, writer: &mut W) -> Result<()> {
        let mut counter = Counter::new();
        self.value.prepend(&mut counter);
        let header = Header {
            tag: self.tag(),
            length: Length::of(counter.filled_len() as usize),
        };
        writer.write(&header.to_bytes())?;
        self.value.append(writer)
    }
}

/// Reads an explicit field if the next octet is that of its tag, else returns `None` and reads nothing. `TrailingData`
/// if bytes follow the encoding inside the tag. `Failed` on a reader that has failed.
pub fn read_context_specific<'a, T: Decode<&'a [u8], M>, M: Memory, R: Reader<&'a [u8]>>(
    memory: M,
    reader: &mut R,
    number: TagNumber,
) -> Result<Option<T>> {
    if !is_tag_next(reader, Tag::context(number))? {
        return Ok(None);
    }
    let value = read_explicit(memory, reader, number)?;
    Ok(Some(value))
}

/// Reads the tag of a field with one encoding inside.
fn read_explicit<'a, T: Decode<&'a [u8], M>, M: Memory, R: Reader<&'a [u8]>>(
    memory: M,
    reader: &mut R,
    number: TagNumber,
) -> Result<T> {
    let inside: Containing<T> = decode_tagged(memory, reader, Tag::context(number))?;
    Ok(inside.0)
}
