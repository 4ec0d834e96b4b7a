// Made of crates/spki_core/src/field.rt by tools/erase/erase.py, and not to be edited.
//! Explicit fields with defaults (X.690 8.14.2, 11.5).

use crate::proved::der_core::{
    Containing, Decode, Encoding, Memory, Result, Tag, TagNumber, begins_with, read_tagged,
};

/// The value of an explicit field in front, or the default if the first octet isn't that of its tag, and what follows.
/// Err: the first fault, or `OutOfMemory`.
#[inline(always)]
pub fn read_field<'a, T: Decode<&'a [u8], M>, M: Memory>(
    memory: M,
    bytes: &'a [u8],
    number: TagNumber,
    default: T,
) -> Result<(T, &'a [u8])> {
    let tag = Tag::context(number);
    if !begins_with(bytes, tag) {
        return Ok((default, bytes));
    }
    let (inside, rest) = read_tagged::<Containing<T>, M>(memory, bytes, tag)?;
    Ok((inside.0, rest))
}

/// What is noted of a field that was read at the front of these bytes: the first field that was noted, or this one, if
/// it is there with its default.
#[inline(always)]
pub fn note(
    noted: Option<TagNumber>,
    bytes: &[u8],
    number: TagNumber,
    is_default: bool,
) -> Option<TagNumber> {
    match noted {
        Some(first) => Some(first),
        None if begins_with(bytes, Tag::context(number)) && is_default => Some(number),
        None => None,
    }
}

/// What `read_context_specific` reads is a tag with one encoding inside, or nothing where the octet of the tag isn't next.
/// In place of nothing, `read_field` gives the default.
pub fn lemma_fields_are_read<T: Encoding>() {}
