// Made of crates/pkcs1_program/src/output_file.rt by tools/erase/erase.py, and not to be edited.
//! Writing a key to a file: in place, or by a new file that takes its place.

use crate::tool::pkcs1_program::copied::Copied;
use crate::tool::pkcs1_program::copy_error::WriteError;
use crate::tool::pkcs1_program::filter::finish;
use crate::tool::pkcs1_program::replace::{Beside, ReplaceFiles, Target};
use crate::proved::der_core::Close;
use crate::rattle_std::alloc::Global;
use crate::rattle_std::path::{Path, PathBuf};

/// Why a file doesn't get the bytes, and the path of a new file that couldn't be removed again.
pub struct Unwritten {
    pub error: WriteError,
    pub left: Option<PathBuf>,
}

impl From<WriteError> for Unwritten {
    /// No new file is left.
    fn from(error: WriteError) -> Unwritten {
        Unwritten { error, left: None }
    }
}

/// Writes all the bytes to a sink, flushes and closes it.
fn fill<W: Close>(sink: W, bytes: &[u8]) -> Result<(), WriteError> {
    let mut sink = sink;
    let written = finish(bytes, &mut sink);
    sink.close();
    match written {
        Ok(()) => Ok(()),
        Err(_) => Err(WriteError::Write),
    }
}

/// Opens what is no regular file, and writes the bytes.
fn write_in_place<F: ReplaceFiles>(
    files: &mut F,
    path: Path<'_>,
    bytes: &[u8],
) -> Result<(), WriteError> {
    match files.open_in_place(path) {
        Ok(sink) => fill(sink, bytes),
        Err(_) => Err(WriteError::Open),
    }
}

/// Removes a new file again. If that fails, its path goes into the error.
fn give_up<F: ReplaceFiles>(files: &mut F, path: PathBuf, error: WriteError) -> Unwritten {
    match files.remove(path.as_path()) {
        Ok(()) => Unwritten::from(error),
        Err(_) => Unwritten {
            error,
            left: Some(path),
        },
    }
}

/// Writes the bytes to a new file, and renames that when it is whole.
fn write_beside<K: Copied, F: ReplaceFiles>(
    files: &mut F,
    beside: Beside,
    read: u32,
    bytes: &[u8],
) -> Result<(), Unwritten> {
    let Beside { to, path, replaced } = beside;
    let mode = K::new_mode(read, replaced);
    let Ok(sink) = files.create_new(path.as_path(), mode) else {
        return Err(Unwritten::from(WriteError::Create));
    };
    if let Err(error) = fill(sink, bytes) {
        return Err(give_up(files, path, error));
    }
    if files.rename(path.as_path(), to.as_path()).is_err() {
        return Err(give_up(files, path, WriteError::Rename));
    }
    match files.sync_name(to.as_path()) {
        Ok(()) => Ok(()),
        Err(_) => Err(Unwritten::from(WriteError::Sync)),
    }
}

/// Writes a key of this kind, which was read from a file of the mode `read`, to the file at the path. A regular one is
/// replaced when the bytes are written, another one is written in place.
pub fn write_output<K: Copied, F: ReplaceFiles>(
    files: &mut F,
    alloc: Global,
    path: Path<'_>,
    read: u32,
    bytes: &[u8],
) -> Result<(), Unwritten> {
    match files.target(alloc, path) {
        Ok(Target::Refused) => Err(Unwritten::from(WriteError::Open)),
        Ok(Target::Dangling) => Err(Unwritten::from(WriteError::Dangling)),
        Ok(Target::InPlace) => Ok(write_in_place(files, path, bytes)?),
        Ok(Target::Beside(beside)) => write_beside::<K, F>(files, beside, read, bytes),
        Err(_) => Err(Unwritten::from(WriteError::Memory)),
    }
}
