//! What the program uses of lists, beside what the library uses.

use super::alloc::{AllocError, AllocFailed};
use super::io;
use super::prelude::Vec;

impl<T> Vec<T> {
    /// Keeps no item.
    pub fn clear(&mut self) {
        self.items.clear();
    }
}

impl<T: Copy> Vec<T> {
    /// Keeps the first items of this length, or appends copies of `item` up to it.
    pub fn resize(&mut self, len: usize, item: T) -> Result<(), AllocError> {
        self.items.try_reserve(len.saturating_sub(self.items.len())).map_err(|_| AllocError)?;
        self.items.resize(len, item);
        Ok(())
    }
}

impl io::Write for Vec<u8> {
    fn write(&mut self, octets: &[u8]) -> io::Result<usize> {
        self.extend_from_slice(octets)?;
        Ok(octets.len())
    }

    fn flush(&mut self) -> io::Result<()> {
        Ok(())
    }
}

impl From<AllocError> for io::Error {
    fn from(_error: AllocError) -> io::Error {
        io::ErrorKind::OutOfMemory.into()
    }
}

impl<T> From<AllocFailed<T>> for io::Error {
    fn from(_failed: AllocFailed<T>) -> io::Error {
        io::ErrorKind::OutOfMemory.into()
    }
}
