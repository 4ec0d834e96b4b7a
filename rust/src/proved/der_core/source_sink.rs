// Made of crates/der_core/src/source_sink.rt by tools/erase/erase.py, and not to be edited.
//! Sources and sinks of bytes.

use crate::proved::der_core::error::Result;

/// A source of bytes. Of one that doesn't report which bytes it will give, as standard input, nothing is said of them.
pub trait Source {
    /// Puts the next bytes into the front of the buffer, and returns how many. If it is 0 and the buffer isn't empty,
    /// none is left. An error is counted, and takes no byte.
    fn read(&mut self, buf: &mut [u8]) -> Result<usize>;

    /// How many calls have failed. At its greatest value the count stays.
    fn faults(&self) -> u64;
}

/// A sink of bytes. Of one that doesn't report which bytes it took, as standard output, nothing is said of them.
pub trait Sink {
    /// Takes a beginning of the bytes and returns its length: at least 1, unless there are no bytes. An error is
    /// counted, and takes no byte.
    fn write(&mut self, bytes: &[u8]) -> Result<usize>;

    /// Takes no byte. After Ok all that was taken is flushed. An error is counted.
    fn flush(&mut self) -> Result<()>;

    /// How many calls have failed. At its greatest value the count stays.
    fn faults(&self) -> u64;
}

/// A sink that is closed in the end, as a file is.
pub trait Close: Sink {
    /// Closes the sink.
    fn close(self);
}
