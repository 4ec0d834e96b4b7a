// Made of crates/pkcs1_params/src/pss_reading.rt by tools/erase/erase.py, and not to be edited.
//! What `reading.rt` calls of RSASSA-PSS parameters.

use crate::proved::pkcs1_params::from_view::ReadParams;
use crate::proved::pkcs1_params::noting::note_pss;
use crate::proved::pkcs1_params::pss::{PssParamsOf, RsaPssParamsView};
use crate::proved::pkcs1_params::pss_algorithm::RsassaPss;
use crate::proved::pkcs1_params::reading::{AlgorithmParams, read_fields};
use crate::proved::der_core::{DecodeValue, Memory, Result, TagNumber};
use crate::proved::spki_core::AnyRef;

impl<'a, O: ReadParams<'a>> AlgorithmParams<'a> for PssParamsOf<O, AnyRef<'a>> {
    type Oid = RsassaPss;

    #[inline(always)]
    fn read_noting(contents: &'a [u8]) -> Result<(PssParamsOf<O, AnyRef<'a>>, Option<TagNumber>)> {
        let (view, noted) = note_pss(contents)?;
        Ok((O::pss_from_view(view), noted))
    }
}

impl<'a, M: Memory, O: ReadParams<'a>> DecodeValue<&'a [u8], M> for PssParamsOf<O, AnyRef<'a>> {
    #[inline(always)]
    fn read_value(_memory: M, contents: &'a [u8]) -> Result<PssParamsOf<O, AnyRef<'a>>> {
        let view = read_fields::<RsaPssParamsView<'a>>(contents, false)?;
        Ok(O::pss_from_view(view))
    }
}
