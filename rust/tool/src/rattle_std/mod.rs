//! What the erased program uses of Rattle's standard library, over the C library.

#[path = "../../../src/bin/pkcs1_tool/rattle_std/files.rs"]
mod files;
#[path = "../../../src/bin/pkcs1_tool/rattle_std/hex.rs"]
pub mod hex;
pub mod io;
#[path = "../../../src/rattle_std/mod.rs"]
mod library;
pub mod path;
#[allow(unsafe_code)]
mod system;
#[path = "../../../src/bin/pkcs1_tool/rattle_std/text.rs"]
mod text;
#[path = "../../../src/bin/pkcs1_tool/rattle_std/vec.rs"]
mod vec;

pub use files::{fs, os, random, rt};
pub use library::{NO_OCTETS, alloc, arrayvec, cmp, fmt, hash, marker, result};
pub use system::Words;

use alloc::Global;

/// Names that stand in the prelude of Rattle.
pub mod prelude {
    pub use super::HostRuntime;
    pub use super::library::prelude::*;
    pub use super::text::{Eprint, String};
    pub(crate) use super::text::{eprintln, format};
}

/// What `main` is given.
#[derive(Clone, Copy)]
pub struct HostRuntime(pub Words);

impl HostRuntime {
    pub fn alloc(&self) -> Global {
        Global
    }

    pub fn stdin(&self) -> io::Standard<0> {
        io::Standard
    }

    pub fn stdout(&self) -> io::Standard<1> {
        io::Standard
    }
}

pub mod process {
    /// How the program ends.
    pub struct ExitCode(pub u8);

    impl From<u8> for ExitCode {
        fn from(status: u8) -> ExitCode {
            ExitCode(status)
        }
    }
}

pub mod env {
    use super::alloc::Global;
    use super::io;
    use super::prelude::{HostRuntime, String};

    /// The arguments, each of which must be a text.
    pub fn args(rt: &HostRuntime) -> io::Result<::alloc::vec::Vec<String>> {
        let mut words = ::alloc::vec::Vec::new();
        while let Some(word) = rt.0.get(words.len()) {
            let text = core::str::from_utf8(word).map_err(|_| io::ErrorKind::Other)?;
            words.try_reserve(1).map_err(|_| io::ErrorKind::OutOfMemory)?;
            words.push(String::from_str(Global, text)?);
        }
        Ok(words)
    }
}
