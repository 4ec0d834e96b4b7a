// Made of crates/der_core/src/memory.rt by tools/erase/erase.py, and not to be edited.
//! Memory for reading.

use crate::rattle_std::prelude::Vec;
use crate::proved::der_core::error::Result;
use crate::rattle_std::alloc::Global;

/// The memory that a reading call may allocate from, as `NoMemory` or `Global`.
pub trait Memory: Copy {}

/// Nothing is allocated. Types that borrow from the input need no more.
#[derive(Clone, Copy)]
pub struct NoMemory;

impl Memory for NoMemory {}

impl Memory for Global {}

/// Copies the bytes.
pub(crate) fn copy_of(alloc: Global, bytes: &[u8]) -> Result<Vec<u8>> {
    Ok(Vec::from_slice(alloc, bytes)?)
}
