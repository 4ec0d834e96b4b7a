//! `pkcs1_tool` answers lines that ask for keys and parameters, and copies keys from file to file.
//!
//! `tool` is made of its crates in Rattle, as the text of the library is, which is taken in here with all of it in reach.
#![no_std] // so that `Vec` and `ToString` are Rattle's
#![forbid(unsafe_code)]
#![allow(clippy::all, dead_code, unused_imports, unused_macros, unused_variables)]

extern crate alloc;
extern crate std;

#[path = "../../clones.rs"]
mod clones;
#[path = "../../numbers.rs"]
mod numbers;
#[path = "../../proved/mod.rs"]
#[rustfmt::skip]
mod proved;
mod rattle_std;
// Its tests, which write files, are run by rust/check.sh.
#[cfg(not(test))]
#[rustfmt::skip]
mod tool;

#[cfg(not(test))]
fn main() -> std::process::ExitCode {
    tool::pkcs1_tool::main(rattle_std::HostRuntime)
}
