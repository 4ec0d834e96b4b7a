//! What the erased program uses of Rattle's standard library, beside what the library uses.

mod files;
pub mod hex;
#[path = "../../../rattle_std/mod.rs"]
mod library;
pub mod path;
mod system;
mod text;
mod vec;

pub use files::{fs, os, random, rt};
pub use library::{NO_OCTETS, alloc, arrayvec, cmp, fmt, hash, marker, result};
pub use std::io;

use alloc::Global;

/// Names that stand in the prelude of Rattle.
pub mod prelude {
    pub use super::HostRuntime;
    pub use super::library::prelude::*;
    pub use super::text::{Eprint, String};
    pub(crate) use super::text::{eprintln, format};
}

/// What `main` is given.
#[derive(Clone, Copy)]
pub struct HostRuntime;

impl HostRuntime {
    pub fn alloc(&self) -> Global {
        Global
    }

    pub fn stdin(&self) -> io::Stdin {
        io::stdin()
    }

    pub fn stdout(&self) -> io::Stdout {
        io::stdout()
    }
}

pub mod process {
    pub use std::process::ExitCode;
}

pub mod env {
    use super::io;
    use super::prelude::{HostRuntime, String};

    /// The arguments, each of which must be a text.
    pub fn args(_rt: &HostRuntime) -> io::Result<std::vec::Vec<String>> {
        let words = std::env::args_os().map(std::ffi::OsString::into_string);
        words.map(|word| word.map(String).map_err(|_| io::Error::other("no text"))).collect()
    }
}
