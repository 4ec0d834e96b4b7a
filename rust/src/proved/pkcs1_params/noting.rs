// Made of crates/pkcs1_params/src/noting.rt by tools/erase/erase.py, and not to be edited.
//! Parameters that are read field by field, and the first field that is written though it has its default.

use crate::proved::pkcs1_params::hash_fields::{mgf1_with, with_null};
use crate::proved::pkcs1_params::hash_functions::Sha1;
use crate::proved::pkcs1_params::holders::{MaskHolder, PlainHolder};
use crate::proved::pkcs1_params::label::empty_source;
use crate::proved::pkcs1_params::oaep::RsaOaepParamsView;
use crate::proved::pkcs1_params::pss::{RsaPssParamsRef, RsaPssParamsView};
use crate::proved::pkcs1_params::trailer_field::TrailerField;
use crate::proved::der_core::{DecodeParts, NoMemory, Result, TagNumber};
use crate::proved::spki_core::{note, read_field};

/// RSASSA-PSS parameters.
pub(crate) fn note_pss(contents: &[u8]) -> Result<(RsaPssParamsView<'_>, Option<TagNumber>)> {
    let number = TagNumber::new(0);
    let default = with_null::<Sha1, _, _, _>(NoMemory);
    let (hash, mask_part) = read_field(NoMemory, contents, number, default)?;
    let noted = note(None, contents, number, hash.is_default_hash());
    let number = TagNumber::new(1);
    let default = mgf1_with::<Sha1, _, _, _>(NoMemory);
    let (mask_gen, salt_part) = read_field(NoMemory, mask_part, number, default)?;
    let noted = note(noted, mask_part, number, mask_gen.is_default());
    let number = TagNumber::new(2);
    let default = RsaPssParamsRef::SALT_LEN_DEFAULT;
    let (salt_len, last_part) = read_field(NoMemory, salt_part, number, default)?;
    let noted = note(noted, salt_part, number, salt_len == default);
    let number = TagNumber::new(3);
    let default = TrailerField::BC;
    let (trailer_field, rest) = read_field(NoMemory, last_part, number, default)?;
    let noted = note(noted, last_part, number, true);
    <()>::read_parts(NoMemory, rest)?;
    let params = RsaPssParamsView {
        hash,
        mask_gen,
        salt_len,
        trailer_field,
    };
    Ok((params, noted))
}

/// RSAES-OAEP parameters.
pub(crate) fn note_oaep(contents: &[u8]) -> Result<(RsaOaepParamsView<'_>, Option<TagNumber>)> {
    let number = TagNumber::new(0);
    let default = with_null::<Sha1, _, _, _>(NoMemory);
    let (hash, mask_part) = read_field(NoMemory, contents, number, default)?;
    let noted = note(None, contents, number, hash.is_default_hash());
    let number = TagNumber::new(1);
    let default = mgf1_with::<Sha1, _, _, _>(NoMemory);
    let (mask_gen, source_part) = read_field(NoMemory, mask_part, number, default)?;
    let noted = note(noted, mask_part, number, mask_gen.is_default());
    let number = TagNumber::new(2);
    let default = empty_source::<_, _, _>(NoMemory);
    let (p_source, rest) = read_field(NoMemory, source_part, number, default)?;
    let noted = note(noted, source_part, number, p_source.is_default_source());
    <()>::read_parts(NoMemory, rest)?;
    let params = RsaOaepParamsView {
        hash,
        mask_gen,
        p_source,
    };
    Ok((params, noted))
}
