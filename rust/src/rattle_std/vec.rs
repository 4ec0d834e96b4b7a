//! Lists on the heap, whose growth may fail.

use super::alloc::{AllocError, AllocFailed, Global};
use core::fmt;
use core::ops::{Deref, DerefMut};

#[cfg(feature = "alloc")]
type Items<T> = ::alloc::vec::Vec<T>;
#[cfg(not(feature = "alloc"))]
type Items<T> = [T; 0];

/// A list on the heap. Without the feature `alloc` it is empty.
#[derive(Clone, PartialEq, Eq, PartialOrd, Ord, Hash)]
pub struct Vec<T> {
    pub(crate) items: Items<T>,
}

impl<T> Vec<T> {
    /// An empty list. Nothing is allocated.
    pub fn new_in(_alloc: Global) -> Vec<T> {
        Vec { items: Items::default() }
    }

    /// An empty list with room for so many items.
    pub fn with_room(alloc: Global, count: usize) -> Result<Vec<T>, AllocError> {
        let mut made = Vec::new_in(alloc);
        made.reserve(count)?;
        Ok(made)
    }

    /// Makes room for more items.
    fn reserve(&mut self, more: usize) -> Result<(), AllocError> {
        #[cfg(feature = "alloc")]
        let done = self.items.try_reserve(more).is_ok();
        #[cfg(not(feature = "alloc"))]
        let done = more == 0;
        if done { Ok(()) } else { Err(AllocError) }
    }

    /// Appends an item, or hands it back.
    pub fn push(&mut self, item: T) -> Result<(), AllocFailed<T>> {
        match self.reserve(1) {
            #[cfg(feature = "alloc")]
            Ok(()) => {
                self.items.push(item);
                Ok(())
            }
            _ => Err(AllocFailed(item)),
        }
    }

    /// The items.
    pub fn as_slice(&self) -> &[T] {
        &self.items
    }

    /// The items.
    pub fn as_mut_slice(&mut self) -> &mut [T] {
        &mut self.items
    }
}

impl<T: Copy> Vec<T> {
    /// A copy of the items.
    pub fn from_slice(alloc: Global, items: &[T]) -> Result<Vec<T>, AllocError> {
        let mut copy = Vec::new_in(alloc);
        copy.extend_from_slice(items)?;
        Ok(copy)
    }

    /// Appends copies of the items, or none.
    pub fn extend_from_slice(&mut self, items: &[T]) -> Result<(), AllocError> {
        self.reserve(items.len())?;
        #[cfg(feature = "alloc")]
        self.items.extend_from_slice(items);
        Ok(())
    }

    /// The item, so many times.
    pub fn repeated(alloc: Global, item: T, count: usize) -> Result<Vec<T>, AllocError> {
        let mut made = Vec::new_in(alloc);
        made.reserve(count)?;
        #[cfg(feature = "alloc")]
        made.items.resize(count, item);
        let _ = item;
        Ok(made)
    }
}

impl<T> Deref for Vec<T> {
    type Target = [T];

    fn deref(&self) -> &[T] {
        &self.items
    }
}

impl<T> DerefMut for Vec<T> {
    fn deref_mut(&mut self) -> &mut [T] {
        &mut self.items
    }
}

impl<'v, T> IntoIterator for &'v Vec<T> {
    type Item = &'v T;
    type IntoIter = core::slice::Iter<'v, T>;

    fn into_iter(self) -> Self::IntoIter {
        self.items.iter()
    }
}

impl<T: fmt::Debug> fmt::Debug for Vec<T> {
    fn fmt(&self, f: &mut fmt::Formatter<'_>) -> fmt::Result {
        self.items.fmt(f)
    }
}

#[cfg(feature = "alloc")]
impl<T> From<::alloc::vec::Vec<T>> for Vec<T> {
    fn from(items: ::alloc::vec::Vec<T>) -> Vec<T> {
        Vec { items }
    }
}

#[cfg(feature = "alloc")]
impl<T> From<Vec<T>> for ::alloc::vec::Vec<T> {
    fn from(list: Vec<T>) -> ::alloc::vec::Vec<T> {
        list.items
    }
}

/// `vec![in alloc; item; count]`.
macro_rules! vec {
    (in $alloc:expr; $item:expr; $count:expr) => {
        $crate::rattle_std::prelude::Vec::repeated($alloc, $item, $count)
    };
}
pub(crate) use vec;
