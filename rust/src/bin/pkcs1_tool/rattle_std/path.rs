//! Paths of files, as Rust's std has them on each system.

use super::alloc::{AllocError, Global};

/// The path of a file.
#[derive(Clone, Copy, Debug)]
pub struct Path<'p>(pub &'p std::path::Path);

impl<'p> Path<'p> {
    pub fn new(path: &'p str) -> Path<'p> {
        Path(std::path::Path::new(path))
    }

    pub fn as_str(&self) -> &'p str {
        self.0.to_str().unwrap_or_default()
    }

    pub fn to_path_buf(&self, _alloc: Global) -> Result<PathBuf, AllocError> {
        Ok(PathBuf(self.0.into()))
    }

    pub fn parent(&self) -> Option<Path<'p>> {
        self.0.parent().map(Path)
    }

    pub fn with_file_name(&self, _alloc: Global, name: &str) -> Result<PathBuf, AllocError> {
        Ok(PathBuf(self.0.with_file_name(name)))
    }
}

/// A path on the heap.
#[derive(Clone, Debug)]
pub struct PathBuf(pub std::path::PathBuf);

impl PathBuf {
    pub fn as_path(&self) -> Path<'_> {
        Path(&self.0)
    }
}
