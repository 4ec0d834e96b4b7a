// Made of crates/pkcs1_c/src/numbers.rt by tools/erase/erase.py, and not to be edited.
//! Numbers that the caller passes.

use crate::proved::pkcs1::UintRef;

/// The number with these bytes. Returns `Length` if there are no bytes, `Overflow` if the number is longer than the
/// limit.
#[inline(always)]
pub(crate) fn number<'a>(bytes: &'a [u8]) -> crate::proved::pkcs1::Result<UintRef<'a>> {
    Ok(UintRef::new(bytes)?)
}

/// The bit length of the number with these bytes. Zeros in front don't count. It is 0 of no bytes, and `u64::MAX` of a
/// number that is longer than the limit.
#[unsafe(no_mangle)]
pub extern "C" fn pkcs1_c_bit_len(number: *const u8, number_len: usize) -> u64 {
    let number = unsafe { core::slice::from_raw_parts(number, number_len) };
    match UintRef::new(number) {
        Ok(held) => held.bit_len(),
        Err(_) if number.is_empty() => 0,
        Err(_) => u64::MAX,
    }
}
