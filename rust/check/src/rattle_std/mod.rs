//! What erased tests and programs use of Rattle's standard library, beside what the tool uses.

pub mod fs;
pub mod hex;
mod printed;
#[cfg(test)]
pub mod test;
#[path = "../../../src/bin/pkcs1_tool/rattle_std/mod.rs"]
mod tool;

pub use std::{cell, hash, mem};
pub use tool::{NO_OCTETS, alloc, arrayvec, cmp, env, fmt, io, marker, os, path, random, result, rt};

use alloc::{AllocError, Global};
use prelude::{HostRuntime, String, Vec};

/// Names that stand in the prelude of Rattle.
pub mod prelude {
    pub use super::printed::ToString;
    pub(crate) use super::printed::{assert, assert_eq, assert_ne, println};
    pub use super::tool::prelude::*;
}

impl HostRuntime {
    pub fn lines(&self, _alloc: Global) -> impl Iterator<Item = io::Result<String>> {
        io::stdin().lines().map(|line| line.map(String))
    }
}

impl Vec<u8> {
    pub fn from_array<const N: usize>(alloc: Global, octets: [u8; N]) -> Result<Vec<u8>, AllocError> {
        Vec::from_slice(alloc, &octets)
    }
}

pub mod process {
    pub use super::tool::process::ExitCode;

    /// A handle that may end the process.
    pub trait Abort {}

    impl Abort for super::HostRuntime {}
}
