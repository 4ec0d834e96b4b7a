// Made of crates/pkcs1_params/src/oaep_reading.rt by tools/erase/erase.py, and not to be edited.
//! What `reading.rt` calls of RSAES-OAEP parameters.

use crate::proved::pkcs1_params::from_view::ReadParams;
use crate::proved::pkcs1_params::noting::note_oaep;
use crate::proved::pkcs1_params::oaep::{OaepParamsOf, RsaOaepParamsView};
use crate::proved::pkcs1_params::oaep_algorithm::RsaesOaep;
use crate::proved::pkcs1_params::reading::{AlgorithmParams, read_fields};
use crate::proved::der_core::{DecodeValue, Memory, Result, TagNumber};
use crate::proved::spki_core::AnyRef;

impl<'a, O: ReadParams<'a>> AlgorithmParams<'a> for OaepParamsOf<O, AnyRef<'a>> {
    type Oid = RsaesOaep;

    #[inline(always)]
    fn read_noting(contents: &'a [u8]) -> Result<(OaepParamsOf<O, AnyRef<'a>>, Option<TagNumber>)> {
        let (view, noted) = note_oaep(contents)?;
        Ok((O::oaep_from_view(view), noted))
    }
}

impl<'a, M: Memory, O: ReadParams<'a>> DecodeValue<&'a [u8], M> for OaepParamsOf<O, AnyRef<'a>> {
    #[inline(always)]
    fn read_value(_memory: M, contents: &'a [u8]) -> Result<OaepParamsOf<O, AnyRef<'a>>> {
        let view = read_fields::<RsaOaepParamsView<'a>>(contents, false)?;
        Ok(O::oaep_from_view(view))
    }
}
