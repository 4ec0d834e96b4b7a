// Made of crates/der_core/src/counter.rt by tools/erase/erase.py, and not to be edited.
//! A counter of octets.

use crate::proved::der_core::error::Result;
use crate::proved::der_core::length::{Length, with_header};
use crate::proved::der_core::prepend::Prepend;
use crate::proved::der_core::tag::Tag;

/// Counts the octets that it receives: exactly up to `Length::MAX`.
pub struct Counter {
    sum: u64,
}

impl Counter {
    /// Nothing is counted yet.
    #[inline(always)]
    #[must_use]
    pub fn new() -> Counter {
        Counter { sum: 0 }
    }

    /// How many octets were counted. `Overflow` exactly if they are more than `Length::MAX`.
    #[inline(always)]
    pub fn length(&self) -> Result<Length> {
        Length::counted(self.sum)
    }
}

impl Prepend for Counter {
    #[inline(always)]
    fn filled_len(&self) -> u64 {
        self.sum
    }

    #[inline(always)]
    fn prepend(&mut self, bytes: &[u8]) {
        self.sum = self.sum.saturating_add(bytes.len() as u64);
    }

    #[inline(always)]
    fn prepend_header(&mut self, _tag: Tag, before: u64) {
        let encoding = with_header(self.sum.saturating_sub(before));
        self.sum = before.saturating_add(encoding);
    }
}
