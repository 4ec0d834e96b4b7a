//! The tool over the C library: the text of `pkcs1_tool` without what is there for the proof. C's `main` calls it.
//!
//! Of Rust's library only `core` and `alloc` are in it. What the text asks for besides is written over `ffi/lib/os.c`.
#![no_std]
#![deny(unsafe_code, clippy::undocumented_unsafe_blocks)]
// Cargo's tool and the check use more of what they share with this one.
#![allow(dead_code, unused_imports)]

extern crate alloc;

#[path = "../../src/clones.rs"]
mod clones;
#[path = "../../src/numbers.rs"]
mod numbers;
#[path = "../../src/proved/mod.rs"]
#[allow(clippy::all, unused)]
#[rustfmt::skip]
mod proved;
mod rattle_std;
#[path = "../../src/bin/pkcs1_tool/tool/mod.rs"]
#[allow(clippy::all, unused)]
#[rustfmt::skip]
mod tool;

use core::ffi::{c_char, c_int};
use rattle_std::{HostRuntime, Words};

/// Runs the program, and returns its exit status.
///
/// # Safety
/// The arguments are those of C's `main`.
#[allow(unsafe_code)]
#[unsafe(no_mangle)]
pub unsafe extern "C" fn pkcs1_tool_main(count: c_int, words: *const *const c_char) -> c_int {
    // SAFETY: so it is by this function's own condition.
    let words = unsafe { Words::new(count, words) };
    tool::pkcs1_tool::main(HostRuntime(words)).0.into()
}

#[allow(unsafe_code)]
unsafe extern "C" {
    /// No function: it stands where the program stops. `tools/generate` puts a trap in the place of each call.
    safe fn pkcs1_stop() -> !;
}

/// What the proof excludes, and a mistake in what made the text, or in what is written by hand, may reach.
#[panic_handler]
fn panic(_: &core::panic::PanicInfo<'_>) -> ! {
    pkcs1_stop()
}
