// Made of crates/der_core/src/slice_reader.rt by tools/erase/erase.py, and not to be edited.
//! A reader over a slice.

use crate::proved::der_core::error::{Error, ErrorKind, Result};
use crate::proved::der_core::length::Length;
use crate::proved::der_core::reader::{BytesLeft, Reader};

/// A reader over a slice of at most `Length::MAX` bytes.
pub struct SliceReader<'a> {
    bytes: &'a [u8],
    failed: bool,
}

impl<'a> BytesLeft for SliceReader<'a> {}

impl<'a> SliceReader<'a> {
    /// A reader that has all of the bytes left. `Overflow` exactly if they are more than `Length::MAX`.
    pub fn new(bytes: &'a [u8]) -> Result<SliceReader<'a>> {
        if bytes.len() > Length::MAX.to_usize() {
            return Err(Error::new(ErrorKind::Overflow));
        }
        Ok(SliceReader {
            bytes,
            failed: false,
        })
    }

    /// The bytes that are left, or none if the reader has failed.
    #[must_use]
    pub fn rest(&self) -> &'a [u8] {
        if self.failed { crate::rattle_std::NO_OCTETS } else { self.bytes }
    }
}

impl<'a> Reader<&'a [u8]> for SliceReader<'a> {
    fn remaining_len(&self) -> Length {
        if self.failed {
            Length::ZERO
        } else {
            Length::of(self.bytes.len())
        }
    }

    fn peek_octet(&self) -> Option<u8> {
        if self.failed {
            None
        } else {
            self.bytes.first().copied()
        }
    }

    fn read_slice(&mut self, len: Length) -> Result<&'a [u8]> {
        if self.failed {
            return Err(Error::new(ErrorKind::Failed));
        }
        let len = len.to_usize();
        if self.bytes.len() < len {
            return Err(self.error(ErrorKind::Incomplete));
        }
        let (front, rest) = self.bytes.split_at(len);
        self.bytes = rest;
        Ok(front)
    }

    fn nested(&mut self, len: Length) -> Result<SliceReader<'a>> {
        let bytes = self.read_slice(len)?;
        Ok(SliceReader {
            bytes,
            failed: false,
        })
    }

    fn error(&mut self, kind: ErrorKind) -> Error {
        self.failed = true;
        Error::new(kind)
    }

    fn finish(&mut self) -> Result<()> {
        if self.failed {
            return Err(Error::new(ErrorKind::Failed));
        }
        if !self.bytes.is_empty() {
            return Err(self.error(ErrorKind::TrailingData));
        }
        Ok(())
    }
}
