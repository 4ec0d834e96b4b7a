// Made of crates/pkcs1_c/src/oaep_algorithm.rt by tools/erase/erase.py, and not to be edited.
//! The algorithm identifier of RSAES-OAEP with its parameters.

use crate::calls::pkcs1_c::filled::fill;
use crate::calls::pkcs1_c::oaep::{OaepParams, from_c_oaep, to_c_oaep};
use crate::calls::pkcs1_c::status::{OK, status};
use crate::calls::pkcs1_c::written::write_algorithm;
use crate::proved::pkcs1::{FromAlgorithm, RsaOaepParamsView, RsaesOaep};

/// Decodes the algorithm identifier of RSAES-OAEP with its parameters, as `pkcs1_c_oaep_params_decode` does the
/// parameters. Another algorithm is rejected with status 7, one without parameters with status 10.
#[unsafe(no_mangle)]
pub extern "C" fn pkcs1_c_oaep_algorithm_decode<'a>(
    encoding: *const u8, encoding_len: usize,
    params: &mut OaepParams<'a>,
) -> u32 {
    let encoding = unsafe { core::slice::from_raw_parts(encoding, encoding_len) };
    fill!(
        params,
        RsaOaepParamsView::from_algorithm_der(encoding),
        to_c_oaep
    )
}

/// Decodes the algorithm identifier as `pkcs1_c_oaep_algorithm_decode` does, but only from its shortest encoding: one
/// with a default that is written out is rejected with status 5.
#[unsafe(no_mangle)]
pub extern "C" fn pkcs1_c_oaep_algorithm_decode_strict<'a>(
    encoding: *const u8, encoding_len: usize,
    params: &mut OaepParams<'a>,
) -> u32 {
    let encoding = unsafe { core::slice::from_raw_parts(encoding, encoding_len) };
    fill!(
        params,
        RsaOaepParamsView::from_algorithm_der_strict(encoding),
        to_c_oaep
    )
}

/// Puts the shortest encoding of the algorithm identifier of RSAES-OAEP with these parameters to the front of `out`.
/// What it returns and leaves is as of `pkcs1_c_oaep_params_encode`.
#[unsafe(no_mangle)]
pub extern "C" fn pkcs1_c_oaep_algorithm_encode(
    params: &OaepParams<'_>,
    out: *mut u8, out_len: usize,
    len: &mut usize,
) -> u32 {
    let out = unsafe { core::slice::from_raw_parts_mut(out, out_len) };
    match from_c_oaep(params) {
        Ok(made) => write_algorithm::<RsaesOaep, _>(&made, out, len),
        Err(failure) => status(&failure),
    }
}
