// Made of crates/pkcs1_c/src/written.rt by tools/erase/erase.py, and not to be edited.
//! Encoding into a caller's slice.

use crate::calls::pkcs1_c::status::{NO_ROOM, OK, kind_number};
use crate::proved::der_core::{BackWriter, Encode};
use crate::proved::pkcs1::{EncodeParams, Shortest};
use crate::proved::spki_core::AssociatedOid;

/// Writes the shortest encoding of the value to the front of `out`. Returns 0, with its length in `len`, or `NO_ROOM`,
/// with the needed length in `len`, or another status, with `len` unchanged.
pub(crate) fn write_encoding<T: Encode>(value: &T, out: &mut [u8], len: &mut usize) -> u32 {
    let count = match value.encoded_len() {
        Ok(length) => length.to_usize(),
        Err(error) => return kind_number(&error.kind),
    };
    *len = count;
    if out.len() < count {
        return NO_ROOM;
    }
    let (region, _) = out.split_at_mut(count);
    let mut writer = BackWriter::new(region);
    value.prepend(&mut writer);
    OK
}

/// Writes the shortest encoding of parameters, as `write_encoding` does.
pub(crate) fn write_params<T: EncodeParams>(params: T, out: &mut [u8], len: &mut usize) -> u32 {
    params.lemma_is_valid();
    write_encoding(&Shortest::of(params), out, len)
}

/// Writes the shortest encoding of the algorithm identifier of D with parameters, as `write_encoding` does.
pub(crate) fn write_algorithm<D: AssociatedOid, T: EncodeParams>(
    params: T,
    out: &mut [u8],
    len: &mut usize,
) -> u32 {
    write_encoding(&Shortest::identified::<D>(params), out, len)
}
