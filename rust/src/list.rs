//! Lists as parts of a SEQUENCE: SEQUENCE OF (X.690 8.10).

use crate::der::{Result, decoded, encoded};
use crate::proved::der_core::{
    Contents, Decode, DecodeValue, Encode, EncodeValue, Encoding, Memory, NoMemory, Prepend, SequenceTag, TaggedBy,
    Writer, read_borrowed, read_front,
};
use core::fmt;

/// A type that is read without memory, as an item of a [`SequenceOf`] is.
#[diagnostic::on_unimplemented(
    message = "`{Self}` can't be an item of a `SequenceOf`",
    note = "an item is a type of `der::asn1` or of `sequence!` that borrows all that it holds"
)]
pub trait Item<'a>: Sized {
    /// The item in front, and what follows it.
    #[doc(hidden)]
    fn in_front(bytes: &'a [u8]) -> Result<(Self, &'a [u8])>;
}

#[diagnostic::do_not_recommend]
impl<'a, T: Decode<&'a [u8], NoMemory>> Item<'a> for T {
    #[inline]
    fn in_front(bytes: &'a [u8]) -> Result<(T, &'a [u8])> {
        read_front(NoMemory, bytes)
    }
}

/// A SEQUENCE OF (X.690 8.10), which allocates nothing: it borrows the encodings that it was read from, or the items
/// that it was made of. An iterator gives the items.
///
/// ```
/// use pkcs1_proved::der::{Decode, Encode, asn1::SequenceOf};
///
/// let list: SequenceOf<u8> = SequenceOf::from_der(&[0x30, 6, 2, 1, 7, 2, 1, 9])?;
/// assert!(list.iter().eq([7, 9]));
/// assert_eq!(SequenceOf::new(&[7_u8, 9]).encode_to_slice(&mut [0; 8])?, [0x30, 6, 2, 1, 7, 2, 1, 9]);
/// # Ok::<(), pkcs1_proved::der::Error>(())
/// ```
pub struct SequenceOf<'a, T> {
    items: Items<'a, T>,
}

/// Where items are: in front, one after the other, of contents octets that were read, or in a slice.
enum Items<'a, T> {
    Read(&'a [u8]),
    Given(&'a [T]),
}

impl<T> Clone for Items<'_, T> {
    fn clone(&self) -> Self {
        *self
    }
}

impl<T> Copy for Items<'_, T> {}

impl<T> Clone for SequenceOf<'_, T> {
    fn clone(&self) -> Self {
        *self
    }
}

impl<T> Copy for SequenceOf<'_, T> {}

impl<'a, T> SequenceOf<'a, T> {
    /// The list of these items.
    #[must_use]
    pub const fn new(items: &'a [T]) -> SequenceOf<'a, T> {
        SequenceOf { items: Items::Given(items) }
    }

    /// Whether there is no item.
    #[must_use]
    pub const fn is_empty(&self) -> bool {
        match self.items {
            Items::Read(octets) => octets.is_empty(),
            Items::Given(items) => items.is_empty(),
        }
    }
}

impl<'a, T: Item<'a> + Clone> SequenceOf<'a, T> {
    /// The items, in their order.
    #[must_use]
    pub fn iter(&self) -> SequenceOfItems<'a, T> {
        SequenceOfItems { left: self.items }
    }
}

/// The items of a [`SequenceOf`].
pub struct SequenceOfItems<'a, T> {
    left: Items<'a, T>,
}

impl<T> Clone for SequenceOfItems<'_, T> {
    fn clone(&self) -> Self {
        SequenceOfItems { left: self.left }
    }
}

impl<'a, T: Item<'a> + Clone> Iterator for SequenceOfItems<'a, T> {
    type Item = T;

    fn next(&mut self) -> Option<T> {
        match &mut self.left {
            // All were read before, so only the end gives none.
            Items::Read(octets) => {
                let (item, rest) = T::in_front(octets).ok()?;
                *octets = rest;
                Some(item)
            }
            Items::Given(items) => {
                let (item, rest) = items.split_first()?;
                *items = rest;
                Some(item.clone())
            }
        }
    }
}

impl<'a, T: Item<'a> + Clone> core::iter::FusedIterator for SequenceOfItems<'a, T> {}

impl<'a, T: Item<'a> + Clone> IntoIterator for SequenceOf<'a, T> {
    type Item = T;
    type IntoIter = SequenceOfItems<'a, T>;

    fn into_iter(self) -> SequenceOfItems<'a, T> {
        self.iter()
    }
}

impl<'a, T: Item<'a> + Clone> IntoIterator for &SequenceOf<'a, T> {
    type Item = T;
    type IntoIter = SequenceOfItems<'a, T>;

    fn into_iter(self) -> SequenceOfItems<'a, T> {
        self.iter()
    }
}

impl<'a, T: Item<'a> + Clone + PartialEq> PartialEq for SequenceOf<'a, T> {
    fn eq(&self, other: &SequenceOf<'a, T>) -> bool {
        self.iter().eq(other.iter())
    }
}

impl<'a, T: Item<'a> + Clone + Eq> Eq for SequenceOf<'a, T> {}

impl<'a, T: Item<'a> + Clone + fmt::Debug> fmt::Debug for SequenceOf<'a, T> {
    fn fmt(&self, f: &mut fmt::Formatter<'_>) -> fmt::Result {
        f.debug_list().entries(self).finish()
    }
}

impl<T: Encoding> Contents for SequenceOf<'_, T> {}

impl<T> TaggedBy for SequenceOf<'_, T> {
    type Marker = SequenceTag;
}

impl<'a, M: Memory, T: Decode<&'a [u8], M>> DecodeValue<&'a [u8], M> for SequenceOf<'a, T> {
    fn read_value(memory: M, contents: &'a [u8]) -> Result<SequenceOf<'a, T>> {
        let mut left = contents;
        while !left.is_empty() {
            left = T::read_one(memory, left)?.1;
        }
        Ok(SequenceOf { items: Items::Read(contents) })
    }
}

impl<T: Encode> EncodeValue for SequenceOf<'_, T> {
    fn check_value(&self) -> Result<()> {
        match self.items {
            Items::Read(_) => Ok(()),
            Items::Given(items) => check_all(items),
        }
    }

    /// What was read is what is written, as each item has one encoding.
    fn prepend_value<W: Prepend>(&self, writer: &mut W) {
        match self.items {
            Items::Read(octets) => writer.prepend(octets),
            Items::Given(items) => prepend_all(items, writer),
        }
    }

    fn append_value<W: Writer>(&self, writer: &mut W) -> Result<()> {
        match self.items {
            Items::Read(octets) => writer.write(octets),
            Items::Given(items) => append_all(items, writer),
        }
    }
}

fn check_all<T: Encode>(items: &[T]) -> Result<()> {
    items.iter().try_for_each(Encode::check)
}

fn prepend_all<T: Encode, W: Prepend>(items: &[T], writer: &mut W) {
    items.iter().rev().for_each(|item| item.prepend(writer));
}

fn append_all<T: Encode, W: Writer>(items: &[T], writer: &mut W) -> Result<()> {
    items.iter().try_for_each(|item| item.append(writer))
}

decoded! {
    {T: Decode<&'a [u8], NoMemory>} SequenceOf<'a, T>, bytes => read_borrowed(bytes);
}
encoded! {
    {T: Encode} SequenceOf<'_, T>, list => *list;
}

#[cfg(feature = "alloc")]
mod owned {
    use super::{append_all, check_all, prepend_all};
    use crate::der::Result;
    use crate::proved::der_core::{
        Contents, Decode, DecodeValue, Encode, EncodeValue, Encoding, Prepend, SequenceTag, TaggedBy, Writer,
    };
    use crate::rattle_std::alloc::Global;
    use crate::rattle_std::prelude::Vec as List;
    use alloc::vec::Vec;

    impl<T: Encoding> Contents for Vec<T> {}

    impl<T> TaggedBy for Vec<T> {
        type Marker = SequenceTag;
    }

    impl<'a, T: Decode<&'a [u8], Global>> DecodeValue<&'a [u8], Global> for Vec<T> {
        fn read_value(memory: Global, contents: &'a [u8]) -> Result<Vec<T>> {
            Ok(List::read_value(memory, contents)?.into())
        }
    }

    impl<T: Encode> EncodeValue for Vec<T> {
        fn check_value(&self) -> Result<()> {
            check_all(self)
        }

        fn prepend_value<W: Prepend>(&self, writer: &mut W) {
            prepend_all(self, writer);
        }

        fn append_value<W: Writer>(&self, writer: &mut W) -> Result<()> {
            append_all(self, writer)
        }
    }
}
