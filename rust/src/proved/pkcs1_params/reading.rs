// Made of crates/pkcs1_params/src/reading.rt by tools/erase/erase.py, and not to be edited.
//! Reading of parameters. What differs between the kinds is `read_noting`; `noting.rt` has its bodies.

use crate::proved::pkcs1_params::error::Result;
use crate::proved::der_core::{Error, ErrorKind, Length, Tag, TagNumber, split_encoding};
use crate::proved::spki_core::{AnyRef, AssociatedOid};

/// Borrowed parameters of an algorithm.
pub trait AlgorithmParams<'a>: Sized {
    /// The object identifier of the algorithm.
    type Oid: AssociatedOid;

    /// The parameters with these contents octets, and the first field that is written though it has its default. Err:
    /// the first fault.
    fn read_noting(contents: &'a [u8]) -> crate::proved::der_core::Result<(Self, Option<TagNumber>)>;
}

/// Reads a whole slice; if `strict`, only one in which no default is written. Nothing is allocated.
#[inline(always)]
pub(crate) fn read_params<'a, T: AlgorithmParams<'a>>(bytes: &'a [u8], strict: bool) -> Result<T> {
    Ok(read_slice(bytes, strict)?)
}

/// Reads a whole slice.
#[inline(always)]
fn read_slice<'a, T: AlgorithmParams<'a>>(bytes: &'a [u8], strict: bool) -> crate::proved::der_core::Result<T> {
    if bytes.len() > Length::MAX.to_usize() {
        return Err(Error::new(ErrorKind::Overflow));
    }
    let (contents, rest) = split_encoding(bytes, Tag::SEQUENCE)?;
    let (params, noted) = T::read_noting(contents)?;
    if !rest.is_empty() {
        return Err(Error::new(ErrorKind::TrailingData));
    }
    reject_noted(noted, strict)?;
    Ok(params)
}

/// Reads the parameters of an algorithm; if `strict`, only where no default is written. `TagUnexpected` if they are no
/// SEQUENCE.
#[inline(always)]
pub(crate) fn read_any<'a, T: AlgorithmParams<'a>>(
    any: AnyRef<'a>,
    strict: bool,
) -> crate::proved::der_core::Result<T> {
    if any.tag() != Tag::SEQUENCE {
        return Err(Error::new(ErrorKind::TagUnexpected {
            expected: Tag::SEQUENCE,
            actual: any.tag(),
        }));
    }
    read_fields(any.value(), strict)
}

/// Reads contents octets; if `strict`, only those in which no default is written.
#[inline(always)]
pub(crate) fn read_fields<'a, T: AlgorithmParams<'a>>(
    contents: &'a [u8],
    strict: bool,
) -> crate::proved::der_core::Result<T> {
    let (params, noted) = T::read_noting(contents)?;
    reject_noted(noted, strict)?;
    Ok(params)
}

/// Rejects a written default, if reading is strict: `Noncanonical` with the field's tag.
#[inline(always)]
fn reject_noted(noted: Option<TagNumber>, strict: bool) -> crate::proved::der_core::Result<()> {
    match noted {
        Some(number) if strict => Err(Error::new(ErrorKind::Noncanonical {
            tag: Tag::context(number),
        })),
        _ => Ok(()),
    }
}
