//! The proved calls for C: the text of `pkcs1-proved`, and of the calls, without what is there for the proof.
#![no_std]
#![allow(clippy::all, dead_code, improper_ctypes_definitions, unused_imports, unused_macros, unused_variables)]

mod calls;
#[path = "../../src/clones.rs"]
mod clones;
#[path = "../../src/numbers.rs"]
mod numbers;
#[path = "../../src/proved/mod.rs"]
mod proved;
#[path = "../../src/rattle_std/mod.rs"]
mod rattle_std;

unsafe extern "C" {
    /// Stands where the program stops. `tools/generate` puts a trap in its place.
    fn pkcs1_stop() -> !;
}

/// What the proof excludes, and what a mistake in what made this text may reach.
#[panic_handler]
fn panic(_: &core::panic::PanicInfo<'_>) -> ! {
    unsafe { pkcs1_stop() }
}
