//! Files, as the tests use them.

use super::io;
use super::prelude::Vec;
use super::tool::path::Path;

pub use super::tool::fs::*;

pub fn read<Rt>(_rt: &Rt, path: Path<'_>) -> io::Result<Vec<u8>> {
    std::fs::read(path.0).map(Vec::from)
}

pub fn write<Rt, B: AsRef<[u8]>>(_rt: &Rt, path: Path<'_>, bytes: B) -> io::Result<()> {
    std::fs::write(path.0, bytes)
}
