// Made of crates/pkcs1_params/src/owned.rt by tools/erase/erase.py, and not to be edited.
//! Reading parameters whose algorithms have owned parameters: those that borrow from the input, copied.

use crate::proved::pkcs1_params::hash_fields::{MaskGenOf, MaskGenRef};
use crate::proved::pkcs1_params::oaep::{RsaOaepParams, RsaOaepParamsOwned, RsaOaepParamsRef};
use crate::proved::pkcs1_params::pss::{RsaPssParams, RsaPssParamsOwned, RsaPssParamsRef};
use crate::proved::der_core::{DecodeValue, NoMemory, Result};
use crate::proved::spki_core::{
    AlgorithmIdentifier, AlgorithmIdentifierRef, Any, AnyParams, AnyRef, ObjectIdentifier,
};
use crate::rattle_std::alloc::Global;

/// Copies the contents octets. Nothing is allocated if there are none.
fn copy_any(alloc: Global, any: AnyRef<'_>) -> Result<Any> {
    if any.value().is_empty() {
        return Ok(Any::empty(alloc, any.tag()));
    }
    Any::new_in(alloc, any.tag(), any.value())
}

/// Copies a hash function or a label source.
fn copy_plain(
    alloc: Global,
    algorithm: AlgorithmIdentifierRef<'_>,
) -> Result<AlgorithmIdentifier<Any>> {
    let parameters = match algorithm.parameters {
        Some(any) => Some(copy_any(alloc, any)?),
        None => None,
    };
    Ok(AlgorithmIdentifier {
        oid: algorithm.oid,
        parameters,
    })
}

/// Copies a mask generation function.
fn copy_mask_gen(
    alloc: Global,
    mask_gen: MaskGenRef<'_>,
) -> Result<MaskGenOf<ObjectIdentifier, Any>> {
    let parameters = match mask_gen.parameters {
        Some(hash) => Some(copy_plain(alloc, hash)?),
        None => None,
    };
    Ok(AlgorithmIdentifier {
        oid: mask_gen.oid,
        parameters,
    })
}

/// Copies RSASSA-PSS parameters.
fn copy_pss(alloc: Global, params: RsaPssParamsRef<'_>) -> Result<RsaPssParamsOwned> {
    Ok(RsaPssParams {
        hash: copy_plain(alloc, params.hash)?,
        mask_gen: copy_mask_gen(alloc, params.mask_gen)?,
        salt_len: params.salt_len,
        trailer_field: params.trailer_field,
    })
}

/// Copies RSAES-OAEP parameters.
fn copy_oaep(alloc: Global, params: RsaOaepParamsRef<'_>) -> Result<RsaOaepParamsOwned> {
    Ok(RsaOaepParams {
        hash: copy_plain(alloc, params.hash)?,
        mask_gen: copy_mask_gen(alloc, params.mask_gen)?,
        p_source: copy_plain(alloc, params.p_source)?,
    })
}

impl<'a> DecodeValue<&'a [u8], Global> for RsaPssParams<Any> {
    fn read_value(memory: Global, contents: &'a [u8]) -> Result<RsaPssParamsOwned> {
        let params = RsaPssParamsRef::read_value(NoMemory, contents)?;
        copy_pss(memory, params)
    }
}

impl<'a> DecodeValue<&'a [u8], Global> for RsaOaepParams<Any> {
    fn read_value(memory: Global, contents: &'a [u8]) -> Result<RsaOaepParamsOwned> {
        let params = RsaOaepParamsRef::read_value(NoMemory, contents)?;
        copy_oaep(memory, params)
    }
}
