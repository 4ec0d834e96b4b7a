// Made of crates/pkcs1_program/src/copy.rt by tools/erase/erase.py, and not to be edited.
//! Copying keys from file to file.

use crate::rattle_std::prelude::Vec;
use crate::tool::pkcs1_program::copied::{Copied, Private, Public};
use crate::tool::pkcs1_program::copy_error::FileError;
use crate::tool::pkcs1_program::output_file::{Unwritten, write_output};
use crate::tool::pkcs1_program::replace::ReplaceFiles;
use crate::tool::pkcs1_program::sequence::read_sequence;
use crate::proved::der_core::Source;
use crate::proved::pkcs1::Error;
use crate::rattle_std::alloc::Global;
use crate::rattle_std::path::Path;

/// Reads the encoding of a key, which must be all that the source gives until its end.
fn read_key<K: Copied, R: Source>(alloc: Global, source: &mut R) -> Result<Vec<u8>, Error> {
    let encoding = read_sequence(alloc, source)?;
    K::check(encoding.as_slice())?;
    Ok(encoding)
}

/// What was read from a file: the encoding of a key, and the bits of the file's mode.
struct KeyFile {
    encoding: Vec<u8>,
    mode: u32,
}

/// Opens the file at the path, and reads the encoding of a key, which must be all that it gives.
fn read_file<K: Copied, F: ReplaceFiles>(
    files: &mut F,
    alloc: Global,
    path: Path<'_>,
) -> Result<KeyFile, Error> {
    let mut source = files.open(path)?;
    let mode = files.mode(&source);
    let encoding = read_key::<K, F::Opened>(alloc, &mut source)?;
    Ok(KeyFile { encoding, mode })
}

/// Copies a key from file to file.
fn copy_file<'a, K: Copied, F: ReplaceFiles>(
    files: &mut F,
    alloc: Global,
    input: Path<'a>,
    output: Path<'a>,
) -> Result<(), FileError<'a>> {
    let key = match read_file::<K, F>(files, alloc, input) {
        Ok(key) => key,
        Err(error) => return Err(FileError::reading(input, error)),
    };
    match write_output::<K, F>(files, alloc, output, key.mode, key.encoding.as_slice()) {
        Ok(()) => Ok(()),
        Err(Unwritten { error, left }) => Err(FileError::writing(output, error, left)),
    }
}

/// Copies a public key from file to file. The other file is looked for only after the key was read.
/// Ok: all that the file opened at the first path gave is the encoding of a key, and the file at the second path has
/// exactly it. A new file has the mode of the one that it replaces or, if there is none, what the umask leaves of the
/// mode of the file that was read. Err with `Read`, and the first path: that file can't be opened, or no key was read,
/// for a reason of `read_sequence` or with the first fault of all as a key. Err with `Write`, and the second path: a key
/// was read, and that file doesn't have it, unless only the disk couldn't be waited for. Nothing else is done with
/// files.
pub fn copy_pub<'a, F: ReplaceFiles>(
    files: &mut F,
    alloc: Global,
    input: Path<'a>,
    output: Path<'a>,
) -> Result<(), FileError<'a>> {
    copy_file::<Public, F>(files, alloc, input, output)
}

/// Copies a private key from file to file, as `copy_pub` does a public one, but for the mode of a new file: it has those
/// bits that the owner has in the mode of the file that was read, less what the umask takes, and no others.
pub fn copy_priv<'a, F: ReplaceFiles>(
    files: &mut F,
    alloc: Global,
    input: Path<'a>,
    output: Path<'a>,
) -> Result<(), FileError<'a>> {
    copy_file::<Private, F>(files, alloc, input, output)
}
