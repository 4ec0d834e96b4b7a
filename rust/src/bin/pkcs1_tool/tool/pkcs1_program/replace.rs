// Made of crates/pkcs1_program/src/replace.rt by tools/erase/erase.py, and not to be edited.
//! Files of which a new one can take the place of an old one.

use crate::proved::der_core::{Close, FileSystem, Result};
use crate::rattle_std::alloc::{AllocError, Global};
use crate::rattle_std::io;
use crate::rattle_std::path::{Path, PathBuf};

/// How a file is written.
pub enum Target {
    /// Not at all: it can't be written, or no path without a link leads to it.
    Refused,
    /// Not at all: it is a link to nothing.
    Dangling,
    /// By opening it: it is no regular file.
    InPlace,
    /// By a new file, which takes its place.
    Beside(Beside),
}

/// A new file that takes the place of another.
pub struct Beside {
    /// The path that the new file gets in the end, at which no link stands.
    pub to: PathBuf,
    /// The path that the new file gets at first, in the same folder.
    pub path: PathBuf,
    /// The bits of the mode of the file that it replaces. `None`: there is none.
    pub replaced: Option<u32>,
}

/// The mode of a new file.
#[derive(Clone, Copy, Debug, PartialEq, Eq)]
pub struct Mode {
    /// The bits.
    pub bits: u32,
    /// Whether the umask takes from them.
    pub umask_takes: bool,
}

/// Files of which a new one can take the place of an old one, by one call. Each `Files` of std is one.
pub trait ReplaceFiles: FileSystem {
    /// A file that was created where none was.
    type New: Close;

    /// The bits of the mode of an opened file. If they can't be read, they are those that let only the owner read and
    /// write.
    fn mode(&self, file: &Self::Opened) -> u32;

    /// How to write what is at the path. This changes nothing. A new file has a name that others don't foresee.
    fn target(&mut self, alloc: Global, path: Path<'_>) -> crate::rattle_std::result::Result<Target, AllocError>;

    /// Opens what is no regular file.
    fn open_in_place(&mut self, path: Path<'_>) -> Result<Self::Created>;

    /// Creates a file with this mode where nothing is.
    fn create_new(&mut self, path: Path<'_>, mode: Mode) -> Result<Self::New>;

    /// Renames a new file, which must have taken some bytes and been flushed and closed. What is at the other path is
    /// replaced.
    fn rename(&mut self, from: Path<'_>, to: Path<'_>) -> io::Result<()>;

    /// Waits until the disk has the name of the file at the path.
    fn sync_name(&mut self, path: Path<'_>) -> io::Result<()>;

    /// Removes a file that was created where nothing was.
    fn remove(&mut self, path: Path<'_>) -> io::Result<()>;
}
