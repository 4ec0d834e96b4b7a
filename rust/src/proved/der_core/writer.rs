// Made of crates/der_core/src/writer.rt by tools/erase/erase.py, and not to be edited.
//! Writers.

use crate::proved::der_core::error::{Error, ErrorKind, Result};

/// Takes octets, one slice after another.
pub trait Writer {
    /// Appends all of the octets, behind whichever were written before, and takes their room. The only error is
    /// `NoRoom`, exactly if there is a limit and too little room. Then nothing is written, and the room is as it was.
    fn write(&mut self, bytes: &[u8]) -> Result<()>;
}

/// Writes to a slice from its front.
pub struct SliceWriter<'b> {
    slice: &'b mut [u8],
    len: usize,
}

impl<'b> SliceWriter<'b> {
    /// A writer over this slice, with nothing written. Bytes behind what is written stay as they are.
    #[must_use]
    pub fn new(slice: &'b mut [u8]) -> SliceWriter<'b> {
        SliceWriter { slice, len: 0 }
    }

    /// The part that was written.
    #[must_use]
    pub fn finish(self) -> &'b [u8] {
        let len = self.len;
        let slice = self.slice;
        &slice[..len]
    }
}

impl Writer for SliceWriter<'_> {
    fn write(&mut self, bytes: &[u8]) -> Result<()> {
        if self.slice.len() - self.len < bytes.len() {
            return Err(Error::new(ErrorKind::NoRoom));
        }
        let start = self.len;
        let end = start + bytes.len();
        self.slice[start..end].copy_from_slice(bytes);
        self.len = end;
        Ok(())
    }
}
