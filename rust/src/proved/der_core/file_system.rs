// Made of crates/der_core/src/file_system.rt by tools/erase/erase.py, and not to be edited.
//! Files as sources and sinks, by their paths.

use crate::proved::der_core::error::Result;
use crate::proved::der_core::source_sink::{Close, Source};
use crate::proved::der_core::std_io::{FromRead, ToWrite};
use crate::rattle_std::fs::File;
use crate::rattle_std::path::Path;
use crate::rattle_std::rt::Files;

/// Opens files as sources, and creates them as sinks. Each `Files` of std is one. A caller's own says by `opens` and
/// `creates` what a path stands for, and by `calls` which calls were made. Std's files don't report their calls.
pub trait FileSystem {
    /// A file that was opened.
    type Opened: Source;

    /// A file that was created.
    type Created: Close;

    /// Opens the file at the path. Ok: what the path stands for, by `opens`. Err: `File`, and it stands for nothing.
    fn open(&mut self, path: Path<'_>) -> Result<Self::Opened>;

    /// Creates the file at the path, or truncates an old one. Ok: what the path stands for, by `creates`. Err: `File`,
    /// and it stands for nothing.
    fn create(&mut self, path: Path<'_>) -> Result<Self::Created>;
}

impl<Rt: Files> FileSystem for Rt {
    type Opened = FromRead<Rt::File>;

    type Created = ToWrite<Rt::File>;

    fn open(&mut self, path: Path<'_>) -> Result<FromRead<Rt::File>> {
        FromRead::opened(File::open(&*self, path))
    }

    fn create(&mut self, path: Path<'_>) -> Result<ToWrite<Rt::File>> {
        ToWrite::created(File::create(&*self, path))
    }
}
