//! What cargo's tool asks of Rust's std about files, and random bytes. Where there is no Unix, each file has a mode that
//! lets all read and write, and none is set, all have the same numbers, and no folder is opened.

use super::alloc::Global;
use super::files::{Found, How, Kind};
use super::io::Result;
use super::path::{Path, PathBuf};
use std::collections::hash_map::RandomState;
use std::fs::{Metadata, OpenOptions};
use std::hash::{BuildHasher, Hasher};

/// An open file.
pub use std::fs::File;

/// Opens it. The mode is that of a file that is created.
pub fn open(path: Path<'_>, how: How, _mode: u32) -> Result<File> {
    let mut options = OpenOptions::new();
    match how {
        How::Read => options.read(true),
        How::Write => options.write(true),
        How::CreateNew => options.write(true).create_new(true),
        How::Empty => options.write(true).create(true).truncate(true),
    };
    #[cfg(unix)]
    std::os::unix::fs::OpenOptionsExt::mode(&mut options, _mode);
    #[cfg(not(unix))]
    if path.0.is_dir() {
        return Err(std::io::ErrorKind::Unsupported.into());
    }
    options.open(path.0)
}

/// Waits until the disk has what it holds.
pub fn sync(file: &File) -> Result<()> {
    file.sync_all()
}

pub fn set_mode(_file: &File, _mode: u32) -> Result<()> {
    #[cfg(unix)]
    _file.set_permissions(std::os::unix::fs::PermissionsExt::from_mode(_mode))?;
    Ok(())
}

/// The kind of a file, and what is known of it.
fn told(it: Metadata) -> (Kind, Found) {
    let kind = match it.file_type() {
        of if of.is_file() => Kind::Regular,
        of if of.is_symlink() => Kind::Link,
        _ => Kind::Other,
    };
    #[cfg(unix)]
    let found = {
        use std::os::unix::fs::MetadataExt;
        Found { device: it.dev(), number: it.ino(), len: it.len(), mode: it.mode() }
    };
    #[cfg(not(unix))]
    let found = Found { len: it.len(), mode: 0o666, ..Found::default() };
    (kind, found)
}

pub fn look_at(file: &File) -> Result<(Kind, Found)> {
    file.metadata().map(told)
}

/// Of what stands at the path, or of what a link there names.
pub fn look(path: Path<'_>, through_link: bool) -> Result<(Kind, Found)> {
    if through_link { std::fs::metadata(path.0) } else { std::fs::symlink_metadata(path.0) }.map(told)
}

/// The path of the same file that goes through no link.
pub fn real_path(_alloc: Global, path: Path<'_>) -> Result<PathBuf> {
    std::fs::canonicalize(path.0).map(PathBuf)
}

pub fn rename(from: Path<'_>, to: Path<'_>) -> Result<()> {
    std::fs::rename(from.0, to.0)
}

pub fn remove(path: Path<'_>) -> Result<()> {
    std::fs::remove_file(path.0)
}

/// Fills the room with bytes of Rust's hash keys, which come from the system.
pub fn fill_random(room: &mut [u8]) -> Result<()> {
    for part in room.chunks_mut(8) {
        let bytes = RandomState::new().build_hasher().finish().to_ne_bytes();
        part.copy_from_slice(&bytes[..part.len()]);
    }
    Ok(())
}
