// Made of crates/pkcs1_tool/src/tests/doubles.rt by tools/erase/erase.py, and not to be edited.
//! Sources and sinks that move a few bytes per call, or fail at one.

use crate::rattle_std::prelude::Vec;
use crate::proved::der_core::{Error, ErrorKind, Result, Sink, Source, ToWrite};
use crate::rattle_std::alloc::Global;
use crate::rattle_std::io;
use crate::rattle_std::io::{Read, Write};

/// A source that gives up to `most` bytes per call and fails at call number `failing`, counted from 1.
pub struct Slow<'a> {
    pub left: &'a [u8],
    pub most: usize,
    pub failing: u64,
    pub calls: u64,
    pub faults: u64,
}

impl<'a> Source for Slow<'a> {
    fn read(&mut self, buf: &mut [u8]) -> Result<usize> {
        self.calls = self.calls.saturating_add(1);
        if self.calls == self.failing {
            self.faults = self.faults.saturating_add(1);
            return Err(Error::new(ErrorKind::Failed));
        }
        let count = self.most.max(1).min(self.left.len()).min(buf.len());
        let (given, left) = self.left.split_at(count);
        buf[..count].copy_from_slice(given);
        self.left = left;
        Ok(count)
    }

    fn faults(&self) -> u64 {
        self.faults
    }
}

/// A source that gives one byte per call.
pub fn giving(left: &[u8], failing: u64) -> Slow<'_> {
    Slow {
        left,
        most: 1,
        failing,
        calls: 0,
        faults: 0,
    }
}

/// A source that gives `left` bytes, a front of the block per call.
pub struct Many<'a> {
    pub block: &'a [u8],
    pub left: u64,
}

impl Source for Many<'_> {
    fn read(&mut self, buf: &mut [u8]) -> Result<usize> {
        let most = self.block.len().min(buf.len());
        let count = self.left.min(most as u64) as usize;
        buf[..count].copy_from_slice(&self.block[..count]);
        self.left -= count as u64;
        Ok(count)
    }

    fn faults(&self) -> u64 {
        0
    }
}

/// A sink that takes up to `most` bytes per call and fails at call number `failing`, counted from 1.
pub struct Narrow {
    pub taken: Vec<u8>,
    pub most: usize,
    pub failing: u64,
    pub calls: u64,
    pub flushes: u64,
    pub faults: u64,
}

impl Sink for Narrow {
    fn write(&mut self, bytes: &[u8]) -> Result<usize> {
        self.calls = self.calls.saturating_add(1);
        let count = self.most.max(1).min(bytes.len());
        if self.calls == self.failing || self.taken.extend_from_slice(&bytes[..count]).is_err() {
            self.faults = self.faults.saturating_add(1);
            return Err(Error::new(ErrorKind::Failed));
        }
        Ok(count)
    }

    fn flush(&mut self) -> Result<()> {
        self.flushes = self.flushes.saturating_add(1);
        Ok(())
    }

    fn faults(&self) -> u64 {
        self.faults
    }
}

/// A sink that takes up to `most` bytes per call.
pub fn taking(alloc: Global, most: usize, failing: u64) -> Narrow {
    Narrow {
        taken: Vec::new_in(alloc),
        most,
        failing,
        calls: 0,
        flushes: 0,
        faults: 0,
    }
}

/// A writer that takes no byte and returns no error.
pub struct Full;

impl Write for Full {
    fn write(&mut self, _buf: &[u8]) -> io::Result<usize> {
        Ok(0)
    }

    fn flush(&mut self) -> io::Result<()> {
        Ok(())
    }
}

/// A reader whose first call fails.
pub struct FailingReader<'a> {
    pub left: &'a [u8],
    pub calls: u64,
}

impl Read for FailingReader<'_> {
    fn read(&mut self, buf: &mut [u8]) -> io::Result<usize> {
        self.calls = self.calls.saturating_add(1);
        if self.calls == 1 {
            return Err(io::Error::from(io::ErrorKind::Other));
        }
        self.left.read(buf)
    }
}

/// A writer that takes all bytes of each call, but fails at call number `failing`, counted from 1 over writes and
/// flushes.
pub struct FailingWriter {
    pub taken: Vec<u8>,
    pub failing: u64,
    pub calls: u64,
}

impl FailingWriter {
    fn call(&mut self, bytes: &[u8]) -> io::Result<()> {
        self.calls = self.calls.saturating_add(1);
        if self.calls == self.failing || self.taken.extend_from_slice(bytes).is_err() {
            return Err(io::Error::from(io::ErrorKind::Other));
        }
        Ok(())
    }
}

impl Write for FailingWriter {
    fn write(&mut self, buf: &[u8]) -> io::Result<usize> {
        self.call(buf)?;
        Ok(buf.len())
    }

    fn flush(&mut self) -> io::Result<()> {
        self.call(&[])
    }
}

pub fn failing_at(alloc: Global, failing: u64) -> ToWrite<FailingWriter> {
    ToWrite::new(FailingWriter {
        taken: Vec::new_in(alloc),
        failing,
        calls: 0,
    })
}
