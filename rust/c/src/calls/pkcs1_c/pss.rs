// Made of crates/pkcs1_c/src/pss.rt by tools/erase/erase.py, and not to be edited.
//! Parameters of RSASSA-PSS.

use crate::calls::pkcs1_c::algorithm::{
    Algorithm, MaskGen, from_c_algorithm, from_c_mask_gen, to_c_algorithm, to_c_mask_gen,
};
use crate::calls::pkcs1_c::filled::fill;
use crate::calls::pkcs1_c::status::{OK, status};
use crate::calls::pkcs1_c::written::write_params;
use crate::proved::der_core::{ErrorKind, Tag};
use crate::proved::pkcs1::{Error, RsaPssParamsView, TrailerField};

/// Parameters of RSASSA-PSS.
#[repr(C)]
#[derive(Clone, Copy)]
pub struct PssParams<'a> {
    /// The hash function.
    pub hash: Algorithm<'a>,
    /// The mask generation function.
    pub mask_gen: MaskGen<'a>,
    /// The length of the salt in octets.
    pub salt_len: u8,
    /// The trailer field: 1.
    pub trailer_field: u8,
}

/// The C struct of parameters.
pub(crate) fn to_c_pss<'a>(read: &RsaPssParamsView<'a>) -> PssParams<'a> {
    PssParams {
        hash: to_c_algorithm(&read.hash),
        mask_gen: to_c_mask_gen(&read.mask_gen),
        salt_len: read.salt_len,
        trailer_field: 1,
    }
}

/// The parameters of a C struct.
pub(crate) fn from_c_pss<'a>(params: &PssParams<'a>) -> crate::proved::pkcs1::Result<RsaPssParamsView<'a>> {
    let hash = from_c_algorithm(&params.hash)?;
    let mask_gen = from_c_mask_gen(&params.mask_gen)?;
    if params.trailer_field != 1 {
        let kind = ErrorKind::Value { tag: Tag::INTEGER };
        return Err(Error::Asn1(crate::proved::der_core::Error::new(kind)));
    }
    Ok(RsaPssParamsView {
        hash,
        mask_gen,
        salt_len: params.salt_len,
        trailer_field: TrailerField::BC,
    })
}

/// Decodes parameters of RSASSA-PSS. `OK` exactly if the octets encode some: then `params` holds them, in parts of
/// `encoding` and of static defaults, and the fields behind a `has_..` that is false are empty. Else the status of the
/// first fault, and `params` is as it was.
#[unsafe(no_mangle)]
pub extern "C" fn pkcs1_c_pss_params_decode<'a>(
    encoding: *const u8, encoding_len: usize,
    params: &mut PssParams<'a>,
) -> u32 {
    let encoding = unsafe { core::slice::from_raw_parts(encoding, encoding_len) };
    fill!(params, RsaPssParamsView::try_from(encoding), to_c_pss)
}

/// Decodes parameters of RSASSA-PSS as `pkcs1_c_pss_params_decode` does, but only from their shortest encoding: one
/// with a default that is written out is rejected with status 5.
#[unsafe(no_mangle)]
pub extern "C" fn pkcs1_c_pss_params_decode_strict<'a>(
    encoding: *const u8, encoding_len: usize,
    params: &mut PssParams<'a>,
) -> u32 {
    let encoding = unsafe { core::slice::from_raw_parts(encoding, encoding_len) };
    fill!(
        params,
        RsaPssParamsView::from_der_strict(encoding),
        to_c_pss
    )
}

/// Puts the shortest encoding of parameters of RSASSA-PSS to the front of `out`. `len` and the rest of `out` are as of
/// `pkcs1_c_public_key_encode`. `NO_ROOM`: all parts of `params` can be held, and `out` is shorter than the encoding.
/// `OVERFLOW`: all can be, and no encoding is within the limit. Else the status of the first part that can't be held:
/// `OID_MALFORMED` of octets that are no object identifier, `TAG_UNKNOWN` of a tag octet that isn't supported,
/// `OVERFLOW` of contents longer than the limit, `VALUE` of a trailer field other than 1.
#[unsafe(no_mangle)]
pub extern "C" fn pkcs1_c_pss_params_encode(
    params: &PssParams<'_>,
    out: *mut u8, out_len: usize,
    len: &mut usize,
) -> u32 {
    let out = unsafe { core::slice::from_raw_parts_mut(out, out_len) };
    match from_c_pss(params) {
        Ok(made) => write_params(&made, out, len),
        Err(failure) => status(&failure),
    }
}
