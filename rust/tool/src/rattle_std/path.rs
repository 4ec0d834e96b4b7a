//! Paths of files, as octets. Cargo's tool has others, since it is also built for Windows and WebAssembly, where paths are
//! no octets.

use super::alloc::{AllocError, Global};
use super::prelude::Vec;

/// The path of a file.
#[derive(Clone, Copy, Debug)]
pub struct Path<'p>(pub &'p [u8]);

impl<'p> Path<'p> {
    pub fn new(path: &'p str) -> Path<'p> {
        Path(path.as_bytes())
    }

    pub fn as_str(&self) -> &'p str {
        core::str::from_utf8(self.0).unwrap_or_default()
    }

    pub fn to_path_buf(self, alloc: Global) -> Result<PathBuf, AllocError> {
        Ok(PathBuf(Vec::from_slice(alloc, self.0)?))
    }

    /// The path of the folder, with a slash behind it, or nothing. A slash or `/.` at the end doesn't count, as for
    /// Rust's std. A `..` there counts as a name, at which no file can be.
    fn folder(&self) -> &'p [u8] {
        let mut path = self.0;
        while let [rest @ .., b'/', b'.'] | [rest @ .., b'/'] = path {
            if rest.is_empty() {
                break;
            }
            path = rest;
        }
        let start = path.iter().rposition(|octet| *octet == b'/').map_or(0, |slash| slash + 1);
        path.split_at(start).0
    }

    /// The path of the folder. A slash behind it says the same, and none says that it is the current one.
    pub fn parent(&self) -> Option<Path<'p>> {
        Some(Path(self.folder()))
    }

    /// The path of this name in the same folder.
    pub fn with_file_name(&self, alloc: Global, name: &str) -> Result<PathBuf, AllocError> {
        let mut path = Vec::from_slice(alloc, self.folder())?;
        path.extend_from_slice(name.as_bytes())?;
        Ok(PathBuf(path))
    }
}

/// A path on the heap.
#[derive(Clone, Debug)]
pub struct PathBuf(Vec<u8>);

impl PathBuf {
    pub fn as_path(&self) -> Path<'_> {
        Path(self.0.as_slice())
    }
}
