// Made of crates/der_core/src/sequence_of.rt by tools/erase/erase.py, and not to be edited.
//! SEQUENCE OF (X.690 8.10), as a `Vec` of its items.

use crate::rattle_std::prelude::Vec;
use crate::proved::der_core::decode::{Decode, DecodeValue};
use crate::proved::der_core::encode::{Encode, EncodeValue};
use crate::proved::der_core::error::{Error, ErrorKind, Result};
use crate::proved::der_core::grammar::{Contents, Encoding, SequenceTag, TaggedBy};
use crate::proved::der_core::prepend::Prepend;
use crate::proved::der_core::tag::Tag;
use crate::proved::der_core::writer::Writer;
use crate::rattle_std::alloc::Global;

impl<T: Encoding> Contents for Vec<T> {}

impl<T> TaggedBy for Vec<T> {
    type Marker = SequenceTag;
}

impl<'a, T: Decode<&'a [u8], Global>> DecodeValue<&'a [u8], Global> for Vec<T> {
    fn read_value(memory: Global, contents: &'a [u8]) -> Result<Vec<T>> {
        let mut items = Vec::new_in(memory);
        let mut left = contents;
        while !left.is_empty() {
            let (item, behind) = T::read_one(memory, left)?;
            if items.push(item).is_err() {
                return Err(Error::new(ErrorKind::OutOfMemory));
            }
            left = behind;
        }
        Ok(items)
    }
}

/// Whether each item has an encoding.
pub(crate) fn check_items<T: Encode>(items: &[T]) -> Result<()> {
    for item in items {
        item.check()?;
    }
    Ok(())
}

/// Writes the encodings of the items in front of what was received, the last item first.
pub(crate) fn prepend_items<T: Encode, W: Prepend>(items: &[T], writer: &mut W) {
    let mut left = items.len();
    while left > 0 {
        left -= 1;
        items[left].prepend(writer);
    }
}

/// Appends the encodings of the items.
pub(crate) fn append_items<T: Encode, W: Writer>(items: &[T], writer: &mut W) -> Result<()> {
    for item in items {
        item.append(writer)?;
    }
    Ok(())
}

impl<T: Encode> EncodeValue for Vec<T> {
    fn check_value(&self) -> Result<()> {
        check_items(self.as_slice())
    }

    fn prepend_value<W: Prepend>(&self, writer: &mut W) {
        prepend_items(self.as_slice(), writer);
    }

    fn append_value<W: Writer>(&self, writer: &mut W) -> Result<()> {
        append_items(self.as_slice(), writer)
    }
}
