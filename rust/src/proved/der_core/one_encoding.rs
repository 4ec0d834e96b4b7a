// Made of crates/der_core/src/one_encoding.rt by tools/erase/erase.py, and not to be edited.
//! Types whose values have one encoding each: what is written is the only one.

use crate::rattle_std::prelude::Vec;
use crate::proved::der_core::bit_string::BitString;
use crate::proved::der_core::borrowed::Borrowed;
use crate::proved::der_core::containing::Containing;
use crate::proved::der_core::encode::Encode;
use crate::proved::der_core::error::Result;
use crate::proved::der_core::expected::Expected;
use crate::proved::der_core::grammar::{Contents, Encoding, FixedTag};
use crate::proved::der_core::in_range::InRange;
use crate::proved::der_core::integer::{Uint, UintRef};
use crate::proved::der_core::last_part::{Last, LastByTag};
use crate::proved::der_core::octet_string::OctetStringRef;
use crate::proved::der_core::optional_part::OptionalThen;
use crate::proved::der_core::parts::Row;
use crate::proved::der_core::record::InParts;
use crate::proved::der_core::tagged::Tagged;

/// Contents of which each value has at most one.
pub trait OneContents: Contents {}

/// Encodings of which each value has at most one.
pub trait OneEncoding: Encoding {}

impl<T: OneContents + FixedTag> OneEncoding for T {}

impl<T: OneEncoding> OneEncoding for Borrowed<'_, T> {}

impl OneContents for UintRef<'_> {}

impl OneContents for Uint {}

impl OneContents for u8 {}

impl OneContents for bool {}

impl OneContents for OctetStringRef<'_> {}

impl<C: OneContents> OneContents for BitString<C> {}

impl<T: OneEncoding> OneContents for Containing<T> {}

impl<M, C: OneContents> OneContents for Tagged<M, C> {}

impl<const N: u8> OneContents for Expected<N> {}

impl<const MIN: u8, const MAX: u8> OneContents for InRange<MIN, MAX> {}

impl OneContents for () {}

impl<A: OneEncoding, B: OneContents> OneContents for (A, B) {}

impl<T: OneEncoding> OneContents for Last<T> {}

impl<T: OneContents + FixedTag> OneContents for LastByTag<T> {}

impl<T: OneContents + FixedTag, R: OneContents + Row> OneContents for OptionalThen<T, R> {}

impl<T: OneEncoding> OneContents for Vec<T> {}

impl<T: InParts> OneContents for T
where
    T::Parts: OneContents,
{}

/// A value of the type has at most one encoding: so what is written is the only one. It does nothing: the law is its
/// contract.
pub fn lemma_one_encoding<T: OneEncoding>() {}

/// Writes a value's only encoding to the front of a slice: no value of the type has two. Ok(n): the first n bytes are
/// the encoding, and those behind them are as they were. Err: the slice is as it was, and the error says exactly why.
#[inline(always)]
pub fn write_only<T: OneEncoding + Encode>(value: &T, out: &mut [u8]) -> Result<usize> {
    value.encode_into(out)
}
