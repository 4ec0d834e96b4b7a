// Made of crates/der_core/src/back_writer.rt by tools/erase/erase.py, and not to be edited.
//! A writer that fills a slice from its end.

use crate::proved::der_core::header::Header;
use crate::proved::der_core::length::Length;
use crate::proved::der_core::prepend::Prepend;
use crate::proved::der_core::tag::Tag;

/// Fills a slice from its end to its start, so that the length of the contents is known when their header is written.
pub struct BackWriter<'b> {
    slice: &'b mut [u8],
    free: usize,
}

/// Copies the octets to where they end at an index, and says where they begin. Where octets that another thread changes
/// were counted as fewer than they are now, there is no room for them, and none is written.
#[inline(always)]
fn fill(slice: &mut [u8], end: usize, bytes: &[u8]) -> usize {
    if bytes.len() > end {
        return end;
    }
    let start = end - bytes.len();
    let (front, _) = slice.split_at_mut(end);
    let (_, place) = front.split_at_mut(start);
    place.copy_from_slice(bytes);
    start
}

impl<'b> BackWriter<'b> {
    /// A writer over this slice, with nothing filled yet.
    #[must_use]
    pub fn new(slice: &'b mut [u8]) -> BackWriter<'b> {
        let free = slice.len();
        BackWriter { slice, free }
    }

    /// How many octets there is still room for.
    #[must_use]
    pub fn free(&self) -> usize {
        self.free
    }

    /// The filled part: the end of the slice.
    #[must_use]
    pub fn finish(self) -> &'b [u8] {
        let free = self.free;
        let slice = self.slice;
        &slice[free..]
    }

    /// Writes the octets in front of what is filled.
    #[inline(always)]
    fn put(&mut self, bytes: &[u8]) {
        self.free = fill(self.slice, self.free, bytes);
    }

    /// Writes a header in front of what is filled.
    #[inline(always)]
    fn put_header(&mut self, header: Header) {
        let tag = header.tag.octet();
        let number = header.length.to_usize();
        if number < 0x80 {
            self.put(&[tag, number as u8]);
        } else if number < 0x100 {
            self.put(&[tag, 0x81, number as u8]);
        } else if number < 0x1_0000 {
            self.put(&[tag, 0x82, (number / 0x100) as u8, (number % 0x100) as u8]);
        } else if number < 0x100_0000 {
            self.put(&[
                tag,
                0x83,
                (number / 0x1_0000) as u8,
                (number / 0x100 % 0x100) as u8,
                (number % 0x100) as u8,
            ]);
        } else {
            self.put(&[
                tag,
                0x84,
                (number / 0x100_0000) as u8,
                (number / 0x1_0000 % 0x100) as u8,
                (number / 0x100 % 0x100) as u8,
                (number % 0x100) as u8,
            ]);
        }
    }
}

impl Prepend for BackWriter<'_> {
    #[inline(always)]
    fn filled_len(&self) -> u64 {
        (self.slice.len() - self.free) as u64
    }

    #[inline(always)]
    fn prepend(&mut self, bytes: &[u8]) {
        self.put(bytes);
    }

    #[inline(always)]
    fn prepend_header(&mut self, tag: Tag, before: u64) {
        let length = Length::of(self.slice.len() - self.free - before as usize);
        self.put_header(Header { tag, length });
    }
}
