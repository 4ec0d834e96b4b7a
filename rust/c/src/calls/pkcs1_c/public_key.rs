// Made of crates/pkcs1_c/src/public_key.rt by tools/erase/erase.py, and not to be edited.
//! Public keys.

use crate::calls::pkcs1_c::numbers::number;
use crate::calls::pkcs1_c::status::{OK, status};
use crate::calls::pkcs1_c::written::write_encoding;
use crate::proved::pkcs1::{RsaPublicKey, RsaPublicKeyRef, UintRef};

/// The numbers of a public key, most significant byte first.
#[repr(C)]
#[derive(Clone, Copy)]
pub struct PublicKey<'a> {
    /// The modulus n.
    pub modulus: &'a [u8],
    /// The public exponent e.
    pub public_exponent: &'a [u8],
}

/// Decodes a public key. `OK`, which is 0, exactly if the octets encode one: then `key` holds it, in parts of
/// `encoding`. Else the status of the first fault of a public key, and `key` is as it was.
#[unsafe(no_mangle)]
pub extern "C" fn pkcs1_c_public_key_decode<'a>(encoding: *const u8, encoding_len: usize, key: &mut PublicKey<'a>) -> u32 {
    let encoding = unsafe { core::slice::from_raw_parts(encoding, encoding_len) };
    match RsaPublicKeyRef::try_from(encoding) {
        Ok(read) => {
            key.modulus = read.modulus.as_bytes();
            key.public_exponent = read.public_exponent.as_bytes();
            OK
        }
        Err(error) => status(&error),
    }
}

/// The key with these numbers.
fn from_c_key<'a>(key: &PublicKey<'a>) -> crate::proved::pkcs1::Result<RsaPublicKey<UintRef<'a>>> {
    Ok(RsaPublicKey {
        modulus: number(key.modulus)?,
        public_exponent: number(key.public_exponent)?,
    })
}

/// Puts the only encoding of a public key to the front of `out`. Its numbers may have zeros in front. `OK`: `len` is
/// the length of the encoding, and the rest of `out` is as it was. Else `out` is as it was, and so is `len`, but of
/// `NO_ROOM` it is the length that is needed. `NO_ROOM` exactly if the key has an encoding, and `out` is shorter. Else
/// the status of the first number that can't be held: `LENGTH` if it has no octets, `OVERFLOW` if it is longer than the
/// limit. Else `OVERFLOW`: the encoding is.
#[unsafe(no_mangle)]
pub extern "C" fn pkcs1_c_public_key_encode(
    key: &PublicKey<'_>,
    out: *mut u8, out_len: usize,
    len: &mut usize,
) -> u32 {
    let out = unsafe { core::slice::from_raw_parts_mut(out, out_len) };
    match from_c_key(key) {
        Ok(key) => write_encoding(&key, out, len),
        Err(failure) => status(&failure),
    }
}
