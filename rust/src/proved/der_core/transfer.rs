// Made of crates/der_core/src/transfer.rt by tools/erase/erase.py, and not to be edited.
//! Reading a source to its end, and writing all bytes to a sink.

use crate::rattle_std::prelude::Vec;
use crate::proved::der_core::error::{Error, ErrorKind, Result};
use crate::proved::der_core::length::Length;
use crate::proved::der_core::source_sink::{Sink, Source};
use crate::rattle_std::alloc::Global;

/// How many bytes are read at once.
const PIECE: usize = 65536;

/// Reads a source to its end. Ok: all that the source gave, at most `most` bytes, and no call of it failed. Err:
/// `File`, `OutOfMemory` or `Overflow`, as of `Document::read_from`, with `most` for the limit. It returns even if the
/// source never ends. What was read before an error is lost.
pub fn read_all<R: Source>(alloc: Global, source: &mut R, most: Length) -> Result<Vec<u8>> {
    let mut bytes = Vec::new_in(alloc);
    let mut piece = [0u8; PIECE];
    loop {
        let count = match source.read(&mut piece) {
            Ok(count) => count,
            Err(_) => return Err(Error::new(ErrorKind::File)),
        };
        if count == 0 {
            return Ok(bytes);
        }
        if count > most.to_usize() - bytes.len() {
            return Err(Error::new(ErrorKind::Overflow));
        }
        bytes.extend_from_slice(&piece[..count])?;
    }
}

/// Writes all the bytes to the sink, in order. The only error is `File`, if a write of the sink failed; the sink has
/// then taken a beginning of the bytes.
pub fn put_all<W: Sink>(bytes: &[u8], sink: &mut W) -> Result<()> {
    let mut done = 0;
    while done < bytes.len() {
        match sink.write(&bytes[done..]) {
            Ok(count) => done += count,
            Err(_) => return Err(Error::new(ErrorKind::File)),
        }
    }
    Ok(())
}

/// Like `put_all`, and flushes.
pub(crate) fn write_all<W: Sink>(bytes: &[u8], sink: &mut W) -> Result<()> {
    put_all(bytes, sink)?;
    match sink.flush() {
        Ok(()) => Ok(()),
        Err(_) => Err(Error::new(ErrorKind::File)),
    }
}
