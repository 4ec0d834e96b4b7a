// Made of crates/pkcs1_c/src/bytes.rt by tools/erase/erase.py, and not to be edited.
//! Octets that a call gives back.

/// A struct of octets alone, which C passes by pointer: `pkcs1_bytes`.
#[repr(C)]
#[derive(Clone, Copy)]
pub struct Bytes<'a> {
    /// The octets.
    pub octets: &'a [u8],
}
