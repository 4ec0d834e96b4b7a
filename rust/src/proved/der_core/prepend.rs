// Made of crates/der_core/src/prepend.rt by tools/erase/erase.py, and not to be edited.
//! What receives an encoding from its end to its start: a slice that is filled, or a counter.

use crate::proved::der_core::tag::Tag;

/// Receives octets, each time in front of those that it received before.
pub trait Prepend {
    /// How many octets it received.
    fn filled_len(&self) -> u64;

    /// Receives the octets in front of those before. There has to be room for them.
    fn prepend(&mut self, bytes: &[u8]);

    /// Receives the header of the contents that it received since `filled_len` was `before`. There has to have been room
    /// for both, and their length has to fit.
    fn prepend_header(&mut self, tag: Tag, before: u64);
}
