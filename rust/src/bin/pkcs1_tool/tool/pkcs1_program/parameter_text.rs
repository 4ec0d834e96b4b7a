// Made of crates/pkcs1_program/src/parameter_text.rt by tools/erase/erase.py, and not to be edited.
//! How parameters are read of bytes, and their fields printed. `parameter_answers.rt` calls it.

use crate::rattle_std::prelude::Vec;
use crate::tool::pkcs1_program::digits::{put_field, put_hex, put_number};
use crate::proved::der_core::{Encode, ErrorKind, equal};
use crate::proved::pkcs1::{Error, ObjectIdentifier, RsaOaepParamsRef, RsaPssParamsRef};
use crate::proved::spki_core::{AlgorithmIdentifier, AlgorithmIdentifierRef, AnyRef};
use crate::rattle_std::alloc::{AllocError, Global};

/// What the output for a line needs of RSASSA-PSS and RSAES-OAEP parameters.
pub trait Parameters<'a>: Encode + Sized {
    /// Decodes the parameters, or returns `None`.
    fn read(encoding: &'a [u8]) -> Option<Self>;

    /// Whether the bytes are the shortest encoding of some parameters.
    fn is_strict(encoding: &'a [u8]) -> bool;

    /// Whether both mean the same parameters.
    fn is_same(&self, other: &Self) -> bool;

    /// All encodings, ordered by mask, or `None` if the longest of them is longer than `Length::MAX`.
    fn all_encodings(&self, alloc: Global) -> Result<Option<Vec<Vec<u8>>>, AllocError>;

    /// How many fields have their defaults.
    fn defaults(&self) -> u8;

    /// Appends the output for the parameters to `out`; `again` is their encoding.
    fn put(&self, defaults: u8, again: &[u8], out: &mut Vec<u8>) -> Result<(), AllocError>;
}

/// Whether the error is out of memory.
fn is_memory_error(error: &Error) -> bool {
    match error {
        Error::Asn1(error) => error.kind == ErrorKind::OutOfMemory,
        _ => false,
    }
}

/// Maps an error to `None`, but out of memory to an `AllocError`.
fn found(encodings: crate::proved::pkcs1::Result<Vec<Vec<u8>>>) -> Result<Option<Vec<Vec<u8>>>, AllocError> {
    match encodings {
        Ok(encodings) => Ok(Some(encodings)),
        Err(error) => {
            if is_memory_error(&error) {
                return Err(AllocError);
            }
            Ok(None)
        }
    }
}

/// The output for absent parameters.
const ABSENT: &[u8] = b"-";

/// A mask generation function.
type MaskGenRef<'a> = AlgorithmIdentifier<AlgorithmIdentifierRef<'a>>;

/// Appends the tag and the contents to `out`.
fn put_any(any: &AnyRef<'_>, out: &mut Vec<u8>) -> Result<(), AllocError> {
    put_hex(&[any.tag().octet()], out)?;
    put_field(b":", any.value(), out)
}

/// Appends the object identifier and `/` to `out`.
fn put_identifier(oid: &ObjectIdentifier, out: &mut Vec<u8>) -> Result<(), AllocError> {
    put_hex(oid.as_bytes(), out)?;
    out.extend_from_slice(b"/")
}

/// Appends an algorithm with parameters of any type to `out`.
fn put_plain(algorithm: &AlgorithmIdentifierRef<'_>, out: &mut Vec<u8>) -> Result<(), AllocError> {
    put_identifier(&algorithm.oid, out)?;
    match &algorithm.parameters {
        Some(any) => put_any(any, out),
        None => out.extend_from_slice(ABSENT),
    }
}

/// Appends an algorithm in brackets to `out`.
fn put_bracketed(
    algorithm: &AlgorithmIdentifierRef<'_>,
    out: &mut Vec<u8>,
) -> Result<(), AllocError> {
    out.extend_from_slice(b"[")?;
    put_plain(algorithm, out)?;
    out.extend_from_slice(b"]")
}

/// Appends a mask generation function to `out`.
fn put_mask(mask_gen: &MaskGenRef<'_>, out: &mut Vec<u8>) -> Result<(), AllocError> {
    put_identifier(&mask_gen.oid, out)?;
    match &mask_gen.parameters {
        Some(hash) => put_bracketed(hash, out),
        None => out.extend_from_slice(ABSENT),
    }
}

/// Appends the hash function and the mask generation function to `out`.
fn put_hash_fields(
    hash: &AlgorithmIdentifierRef<'_>,
    mask_gen: &MaskGenRef<'_>,
    out: &mut Vec<u8>,
) -> Result<(), AllocError> {
    out.extend_from_slice(b" hash=")?;
    put_plain(hash, out)?;
    out.extend_from_slice(b" mask=")?;
    put_mask(mask_gen, out)
}

/// Appends to `out` how many fields equal their defaults, and the encoding.
fn put_spelling(defaults: u8, again: &[u8], out: &mut Vec<u8>) -> Result<(), AllocError> {
    put_number(b" defaults=", usize::from(defaults), out)?;
    put_field(b" again=", again, out)
}

/// Appends the output for `pss` to `out`.
fn put_pss(
    params: &RsaPssParamsRef<'_>,
    defaults: u8,
    again: &[u8],
    out: &mut Vec<u8>,
) -> Result<(), AllocError> {
    out.extend_from_slice(b"pss")?;
    put_hash_fields(&params.hash, &params.mask_gen, out)?;
    put_number(b" salt=", usize::from(params.salt_len), out)?;
    put_number(b" trailer=", params.trailer_field as usize, out)?;
    put_spelling(defaults, again, out)
}

/// Appends the output for `oaep` to `out`.
fn put_oaep(
    params: &RsaOaepParamsRef<'_>,
    defaults: u8,
    again: &[u8],
    out: &mut Vec<u8>,
) -> Result<(), AllocError> {
    out.extend_from_slice(b"oaep")?;
    put_hash_fields(&params.hash, &params.mask_gen, out)?;
    out.extend_from_slice(b" source=")?;
    put_plain(&params.p_source, out)?;
    put_spelling(defaults, again, out)
}

impl<'a> Parameters<'a> for RsaPssParamsRef<'a> {
    fn read(encoding: &'a [u8]) -> Option<RsaPssParamsRef<'a>> {
        RsaPssParamsRef::try_from(encoding).ok()
    }

    fn is_strict(encoding: &'a [u8]) -> bool {
        RsaPssParamsRef::from_der_strict(encoding).is_ok()
    }

    fn is_same(&self, other: &RsaPssParamsRef<'a>) -> bool {
        equal(self, other)
    }

    fn all_encodings(&self, alloc: Global) -> Result<Option<Vec<Vec<u8>>>, AllocError> {
        found(self.spellings(alloc))
    }

    fn defaults(&self) -> u8 {
        self.default_fields()
    }

    fn put(&self, defaults: u8, again: &[u8], out: &mut Vec<u8>) -> Result<(), AllocError> {
        put_pss(self, defaults, again, out)
    }
}

impl<'a> Parameters<'a> for RsaOaepParamsRef<'a> {
    fn read(encoding: &'a [u8]) -> Option<RsaOaepParamsRef<'a>> {
        RsaOaepParamsRef::try_from(encoding).ok()
    }

    fn is_strict(encoding: &'a [u8]) -> bool {
        RsaOaepParamsRef::from_der_strict(encoding).is_ok()
    }

    fn is_same(&self, other: &RsaOaepParamsRef<'a>) -> bool {
        equal(self, other)
    }

    fn all_encodings(&self, alloc: Global) -> Result<Option<Vec<Vec<u8>>>, AllocError> {
        found(self.spellings(alloc))
    }

    fn defaults(&self) -> u8 {
        self.default_fields()
    }

    fn put(&self, defaults: u8, again: &[u8], out: &mut Vec<u8>) -> Result<(), AllocError> {
        put_oaep(self, defaults, again, out)
    }
}
