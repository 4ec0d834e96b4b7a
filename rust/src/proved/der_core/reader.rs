// Made of crates/der_core/src/reader.rt by tools/erase/erase.py, and not to be edited.
//! Readers.

use crate::proved::der_core::error::{Error, ErrorKind, Result};
use crate::proved::der_core::length::Length;

/// The slices that a reader returns: `&[u8]`.
pub trait Octets {
    /// How many bytes there are.
    fn octet_count(&self) -> usize;
}

impl<'a> Octets for &'a [u8] {
    #[inline(always)]
    fn octet_count(&self) -> usize {
        count_octets(self)
    }
}

/// How many bytes there are. They are octets.
#[inline(always)]
fn count_octets(bytes: &[u8]) -> usize {
    bytes.len()
}

/// The bytes that a reader has left.
pub trait BytesLeft {}

/// A cursor over bytes. After Ok, what stands behind what was read is left. Once a call has returned an error, the
/// reader has failed: it has no bytes left, `peek_octet` returns `None`, and each later call with a `Result` returns
/// `Failed`. So does each call of another type that reads from it.
pub trait Reader<B: Octets>: BytesLeft + Sized {
    /// How many bytes are left to read: 0 on a reader that has failed.
    fn remaining_len(&self) -> Length;

    /// The next byte, without reading it. `None` at the end and on a reader that has failed.
    fn peek_octet(&self) -> Option<u8>;

    /// Reads the next `len` bytes. `Incomplete` exactly if fewer are left.
    fn read_slice(&mut self, len: Length) -> Result<B>;

    /// Reads the next `len` bytes as a reader of their own. `Incomplete` exactly if fewer are left.
    fn nested(&mut self, len: Length) -> Result<Self>;

    /// Marks the reader as failed, and returns the error of this kind.
    fn error(&mut self, kind: ErrorKind) -> Error;

    /// Reads nothing. `TrailingData` exactly if a byte is left.
    fn finish(&mut self) -> Result<()>;
}

/// Reads one octet.
pub(crate) fn read_octet<'a, R: Reader<&'a [u8]>>(reader: &mut R) -> Result<u8> {
    let octets = reader.read_slice(Length::ONE)?;
    Ok(octets[0])
}

/// Returns `Failed` if the reader has failed. Nothing is read.
#[inline(always)]
pub(crate) fn reject_if_failed<'a, R: Reader<&'a [u8]>>(reader: &mut R) -> Result<()> {
    reader.read_slice(Length::ZERO)?;
    Ok(())
}
