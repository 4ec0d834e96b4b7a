// Made of crates/der_core/src/std_io.rt by tools/erase/erase.py, and not to be edited.
//! Sources and sinks over std's readers and writers.

use crate::proved::der_core::error::{Error, ErrorKind, Result};
use crate::proved::der_core::source_sink::{Close, Sink, Source};
use crate::rattle_std::io::{Read, Write};

/// Counts one more failed call.
fn failed(faults: &mut u64) -> Error {
    *faults = faults.saturating_add(1);
    Error::new(ErrorKind::File)
}

/// A source over a std reader. Each error of it is counted, and returned as `File`. Std's files report no bytes.
#[derive(Debug)]
pub struct FromRead<R> {
    inner: R,
    faults: u64,
}

impl<R: Read> FromRead<R> {
    /// A source over this reader, which counts no failed call yet.
    #[must_use]
    pub fn new(inner: R) -> Self {
        FromRead { inner, faults: 0 }
    }

    /// A source over what was opened. `File` if nothing was.
    pub fn opened<E>(reader: crate::rattle_std::result::Result<R, E>) -> Result<Self> {
        match reader {
            Ok(inner) => Ok(FromRead::new(inner)),
            Err(_) => Err(Error::new(ErrorKind::File)),
        }
    }

    /// The reader.
    #[must_use]
    pub fn get_ref(&self) -> &R {
        &self.inner
    }

    /// Returns the reader.
    #[must_use]
    pub fn into_inner(self) -> R {
        let FromRead { inner, faults: _ } = self;
        inner
    }
}

impl<R: Read> Source for FromRead<R> {
    /// As of `Source`. The only error is `File`.
    fn read(&mut self, buf: &mut [u8]) -> Result<usize> {
        match self.inner.read(buf) {
            Ok(count) => Ok(count),
            Err(_) => Err(failed(&mut self.faults)),
        }
    }

    fn faults(&self) -> u64 {
        self.faults
    }
}

/// A sink over a std writer. Each error of the writer is counted, and returned as `File`; so is a write that takes
/// none of one or more bytes. Std's files report no bytes. That a writer of std is flushed or closed isn't said.
#[derive(Debug)]
pub struct ToWrite<W> {
    inner: W,
    faults: u64,
}

impl<W: Write> ToWrite<W> {
    /// A sink over this writer, which counts no failed call yet.
    #[must_use]
    pub fn new(inner: W) -> Self {
        ToWrite { inner, faults: 0 }
    }

    /// A sink over what was created. `File` if nothing was.
    pub fn created<E>(writer: crate::rattle_std::result::Result<W, E>) -> Result<Self> {
        match writer {
            Ok(inner) => Ok(ToWrite::new(inner)),
            Err(_) => Err(Error::new(ErrorKind::File)),
        }
    }

    /// Returns the writer.
    #[must_use]
    pub fn into_inner(self) -> W {
        let ToWrite { inner, faults: _ } = self;
        inner
    }
}

impl<W: Write> Sink for ToWrite<W> {
    /// As of `Sink`. The only error is `File`, also where the writer takes none of one or more bytes.
    fn write(&mut self, bytes: &[u8]) -> Result<usize> {
        match self.inner.write(bytes) {
            Ok(count) if count > 0 || bytes.is_empty() => Ok(count),
            _ => Err(failed(&mut self.faults)),
        }
    }

    /// As of `Sink`. The only error is `File`.
    fn flush(&mut self) -> Result<()> {
        match self.inner.flush() {
            Ok(()) => Ok(()),
            Err(_) => Err(failed(&mut self.faults)),
        }
    }

    fn faults(&self) -> u64 {
        self.faults
    }
}

impl<W: Write> Close for ToWrite<W> {
    fn close(self) {}
}
