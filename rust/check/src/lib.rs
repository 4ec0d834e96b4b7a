//! The text of the crate in `..` and of its tool, with all of it in reach, and programs that test it, erased alike.
#![no_std] // so that `Vec` and `ToString` are Rattle's
#![forbid(unsafe_code)]
#![allow(clippy::all, dead_code, unused_imports, unused_macros, unused_variables)]

extern crate alloc;
extern crate std;

#[path = "../../src/clones.rs"]
mod clones;
#[cfg(test)]
mod from_the_front;
#[cfg(feature = "programs")]
#[rustfmt::skip]
pub mod programs;
#[path = "../../src/proved/mod.rs"]
#[rustfmt::skip]
pub mod proved;
pub mod rattle_std;
#[path = "../../src/bin/pkcs1_tool/tool/mod.rs"]
#[rustfmt::skip]
pub mod tool;
pub mod words;

use proved::der_core::{Uint, UintRef};
use std::fmt;

// As Rattle derives it, which the rows have.
impl fmt::Debug for UintRef<'_> {
    fn fmt(&self, f: &mut fmt::Formatter<'_>) -> fmt::Result {
        f.debug_struct("UintRef").field("bytes", &self.as_bytes()).finish()
    }
}

impl fmt::Debug for Uint {
    fn fmt(&self, f: &mut fmt::Formatter<'_>) -> fmt::Result {
        f.debug_struct("Uint").field("bytes", &self.as_bytes()).finish()
    }
}
