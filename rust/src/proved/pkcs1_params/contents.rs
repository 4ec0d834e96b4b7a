// Made of crates/pkcs1_params/src/contents.rt by tools/erase/erase.py, and not to be edited.
//! Contents octets of parameters, under a mask that says which of their defaults are written. `non_defaults` is what
//! `non_defaults_in` returns.

use crate::proved::pkcs1_params::fields::Fields;
use crate::proved::pkcs1_params::spelling::EncodeParams;
use crate::proved::der_core::{Prepend, Result, Writer};

/// They may always be encoded.
#[inline(always)]
pub(crate) fn check_contents<T: EncodeParams>(params: T, _mask: u8) -> Result<()> {
    params.lemma_is_valid();
    Ok(())
}

/// Appends them.
#[inline(always)]
pub(crate) fn append_contents<T: EncodeParams, W: Writer>(
    params: T,
    non_defaults: u8,
    mask: u8,
    writer: &mut W,
) -> Result<()> {
    params.fields().append(non_defaults, mask, writer)
}

/// Writes them in front of what was received, or counts them.
#[inline(always)]
pub(crate) fn prepend_contents<T: EncodeParams, W: Prepend>(
    params: T,
    non_defaults: u8,
    mask: u8,
    writer: &mut W,
) {
    params.fields().prepend(non_defaults, mask, writer);
}
