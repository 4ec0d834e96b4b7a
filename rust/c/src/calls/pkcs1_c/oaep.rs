// Made of crates/pkcs1_c/src/oaep.rt by tools/erase/erase.py, and not to be edited.
//! Parameters of RSAES-OAEP.

use crate::calls::pkcs1_c::algorithm::{
    Algorithm, MaskGen, from_c_algorithm, from_c_mask_gen, to_c_algorithm, to_c_mask_gen,
};
use crate::calls::pkcs1_c::bytes::Bytes;
use crate::calls::pkcs1_c::filled::fill;
use crate::calls::pkcs1_c::status::{OK, status};
use crate::calls::pkcs1_c::written::write_params;
use crate::proved::der_core::Tag;
use crate::proved::pkcs1::RsaOaepParamsView;
use crate::proved::pkcs1_params::is_p_specified;

/// Parameters of RSAES-OAEP.
#[repr(C)]
#[derive(Clone, Copy)]
pub struct OaepParams<'a> {
    /// The hash function.
    pub hash: Algorithm<'a>,
    /// The mask generation function.
    pub mask_gen: MaskGen<'a>,
    /// Where the label comes from.
    pub p_source: Algorithm<'a>,
}

/// The C struct of parameters.
pub(crate) fn to_c_oaep<'a>(read: &RsaOaepParamsView<'a>) -> OaepParams<'a> {
    OaepParams {
        hash: to_c_algorithm(&read.hash),
        mask_gen: to_c_mask_gen(&read.mask_gen),
        p_source: to_c_algorithm(&read.p_source),
    }
}

/// The parameters of a C struct.
pub(crate) fn from_c_oaep<'a>(params: &OaepParams<'a>) -> crate::proved::pkcs1::Result<RsaOaepParamsView<'a>> {
    Ok(RsaOaepParamsView {
        hash: from_c_algorithm(&params.hash)?,
        mask_gen: from_c_mask_gen(&params.mask_gen)?,
        p_source: from_c_algorithm(&params.p_source)?,
    })
}

/// Decodes parameters of RSAES-OAEP. `OK` exactly if the octets encode some: then `params` holds them, in parts of
/// `encoding` and of static defaults, and the fields behind a `has_..` that is false are empty. Else the status of the
/// first fault, and `params` is as it was.
#[unsafe(no_mangle)]
pub extern "C" fn pkcs1_c_oaep_params_decode<'a>(
    encoding: *const u8, encoding_len: usize,
    params: &mut OaepParams<'a>,
) -> u32 {
    let encoding = unsafe { core::slice::from_raw_parts(encoding, encoding_len) };
    fill!(params, RsaOaepParamsView::try_from(encoding), to_c_oaep)
}

/// Decodes parameters of RSAES-OAEP as `pkcs1_c_oaep_params_decode` does, but only from their shortest encoding: one
/// with a default that is written out is rejected with status 5.
#[unsafe(no_mangle)]
pub extern "C" fn pkcs1_c_oaep_params_decode_strict<'a>(
    encoding: *const u8, encoding_len: usize,
    params: &mut OaepParams<'a>,
) -> u32 {
    let encoding = unsafe { core::slice::from_raw_parts(encoding, encoding_len) };
    fill!(
        params,
        RsaOaepParamsView::from_der_strict(encoding),
        to_c_oaep
    )
}

/// Puts the shortest encoding of parameters of RSAES-OAEP to the front of `out`. What it returns and leaves is as of
/// `pkcs1_c_pss_params_encode`, but there is no trailer field.
#[unsafe(no_mangle)]
pub extern "C" fn pkcs1_c_oaep_params_encode(
    params: &OaepParams<'_>,
    out: *mut u8, out_len: usize,
    len: &mut usize,
) -> u32 {
    let out = unsafe { core::slice::from_raw_parts_mut(out, out_len) };
    match from_c_oaep(params) {
        Ok(made) => write_params(&made, out, len),
        Err(failure) => status(&failure),
    }
}

/// Whether the source of a label is pSpecified with an OCTET STRING. Then `label` is the slice of its parameters, at
/// the same address. Else `label` is as it was.
#[unsafe(no_mangle)]
pub extern "C" fn pkcs1_c_oaep_label<'a>(source: &Algorithm<'a>, label: &mut Bytes<'a>) -> bool {
    let is_octets = source.has_parameters && source.tag == Tag::OCTET_STRING.octet();
    let is_label = is_octets && is_p_specified(source.oid);
    if is_label {
        label.octets = source.parameters;
    }
    is_label
}
