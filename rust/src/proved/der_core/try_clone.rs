// Made of crates/der_core/src/try_clone.rt by tools/erase/erase.py, and not to be edited.
//! Copying of values that own memory.

use crate::rattle_std::prelude::Vec;
use crate::proved::der_core::error::Result;
use crate::proved::der_core::grammar::Encoding;
use crate::rattle_std::alloc::Global;

/// A type whose values are copied into allocated memory. One with its own `try_clone` needs no import of the trait.
pub trait TryClone: Encoding + Sized {
    /// A copy that means the same value, or `OutOfMemory`, which never comes of what `never_out_of_memory` names.
    fn try_clone_in(&self, alloc: Global) -> Result<Self>;
}

/// Copies each item, in order.
impl<T: TryClone> TryClone for Vec<T> {
    fn try_clone_in(&self, alloc: Global) -> Result<Vec<T>> {
        let mut copies = Vec::new_in(alloc);
        for item in self {
            copies.push(item.try_clone_in(alloc)?)?;
        }
        Ok(copies)
    }
}
