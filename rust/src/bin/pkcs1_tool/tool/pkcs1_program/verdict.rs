// Made of crates/pkcs1_program/src/verdict.rt by tools/erase/erase.py, and not to be edited.
//! Outputs without a value.

use crate::rattle_std::prelude::Vec;
use crate::rattle_std::alloc::AllocError;

/// Appends `refused` to `out`.
pub fn put_refused(out: &mut Vec<u8>) -> Result<(), AllocError> {
    out.extend_from_slice(b"refused")
}

/// Appends the word to `out`, and then ` yes` or ` no`.
pub fn put_verdict(word: &[u8], holds: bool, out: &mut Vec<u8>) -> Result<(), AllocError> {
    out.extend_from_slice(word)?;
    if holds {
        out.extend_from_slice(b" yes")
    } else {
        out.extend_from_slice(b" no")
    }
}
