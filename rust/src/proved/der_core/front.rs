// Made of crates/der_core/src/front.rt by tools/erase/erase.py, and not to be edited.
//! Rows of parts at the front of contents whose rest depends on them.

use crate::proved::der_core::decode::Decode;
use crate::proved::der_core::error::Result;
use crate::proved::der_core::grammar::Encoding;
use crate::proved::der_core::memory::Memory;
use crate::proved::der_core::reader::Octets;

/// A row of parts, each of which is there, at the front of contents that go on behind it.
pub trait FrontRow {}

/// A row that is read at the front of bytes.
pub trait DecodeFront<B: Octets, M: Memory>: FrontRow + Sized {
    /// The row at the front, and what follows it. Err: the first fault, or `OutOfMemory` where it may allocate.
    fn read_first(memory: M, bytes: B) -> Result<(Self, B)>;
}

impl FrontRow for () {}

impl<A: Encoding, B: FrontRow> FrontRow for (A, B) {}

impl<'a, M: Memory> DecodeFront<&'a [u8], M> for () {
    #[inline(always)]
    fn read_first(_memory: M, bytes: &'a [u8]) -> Result<((), &'a [u8])> {
        Ok(((), bytes))
    }
}

impl<'a, M: Memory, A: Decode<&'a [u8], M>, B: DecodeFront<&'a [u8], M>> DecodeFront<&'a [u8], M>
    for (A, B) {
    #[inline(always)]
    fn read_first(memory: M, bytes: &'a [u8]) -> Result<((A, B), &'a [u8])> {
        let (first, behind) = A::read_one(memory, bytes)?;
        let (rest, left) = B::read_first(memory, behind)?;
        Ok(((first, rest), left))
    }
}
