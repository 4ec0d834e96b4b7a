// Made of crates/pkcs1_program/src/sequence.rt by tools/erase/erase.py, and not to be edited.
//! Reading a source as long as what came may begin a SEQUENCE.

use crate::rattle_std::prelude::Vec;
use crate::proved::der_core::{
    Document, Error, ErrorKind, Header, Length, Reader, Result, SliceReader, Source, Tag,
};
use crate::rattle_std::alloc::Global;

/// How many bytes are read at once.
const PIECE: usize = 65536;

/// Whether the bytes begin with the header of a SEQUENCE, and aren't more than this announces.
fn is_front(bytes: &[u8]) -> bool {
    let Ok(mut reader) = SliceReader::new(bytes) else {
        return false;
    };
    match Header::decode(&mut reader) {
        Ok(header) => {
            header.tag.octet() == Tag::SEQUENCE.octet()
                && reader.remaining_len().to_usize() <= header.length.to_usize()
        }
        Err(_) => false,
    }
}

/// The fault of bytes that aren't a beginning of a SEQUENCE; `None` of those that are. Nothing is allocated for these.
fn fault_of(alloc: Global, bytes: &[u8]) -> Option<Error> {
    if is_front(bytes) {
        return None;
    }
    match Document::from_der(alloc, bytes) {
        Ok(_) => None,
        Err(error) => match error.kind() {
            ErrorKind::Incomplete | ErrorKind::OutOfMemory => None,
            _ => Some(error),
        },
    }
}

/// Reads a source to its end. Ok: this is all that it gave, and no call of it failed. It stops as soon as what came is
/// no beginning of a SEQUENCE, and with `Overflow` as soon as it is more than `Length::MAX` bytes, so it returns even
/// if the source never ends. Err: `File` if a call failed, `OutOfMemory` or `Overflow`, as of `Document::read_from`; or
/// what came has this fault as a document, which isn't that it is too short. What was read before an error is lost.
pub fn read_sequence<R: Source>(alloc: Global, source: &mut R) -> Result<Vec<u8>> {
    let mut bytes = Vec::new_in(alloc);
    let mut piece = [0u8; PIECE];
    loop {
        let count = match source.read(&mut piece) {
            Ok(count) => count,
            Err(_) => return Err(Error::new(ErrorKind::File)),
        };
        if count == 0 {
            return Ok(bytes);
        }
        if count > Length::MAX.to_usize() - bytes.len() {
            return Err(Error::new(ErrorKind::Overflow));
        }
        bytes.extend_from_slice(&piece[..count])?;
        if let Some(error) = fault_of(alloc, bytes.as_slice()) {
            return Err(error);
        }
    }
}
