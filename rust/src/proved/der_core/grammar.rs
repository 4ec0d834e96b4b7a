// Made of crates/der_core/src/grammar.rt by tools/erase/erase.py, and not to be edited.
//! What a type's values and their encodings are, stated by a printer: which spellings are valid, what their octets are,
//! and which functions read them. It is one for reading and writing, for borrowed and owned types.
//!
//! The author of a type writes `Contents` (ghosts alone), `TaggedBy` (the tag), and then `DecodeValue` or `EncodeValue`
//! or both.

use crate::proved::der_core::tag::Tag;

/// A type whose values have contents octets: those that are printed of their spellings.
pub trait Contents {}

/// A type whose values have encodings: those that are printed of their spellings.
pub trait Encoding {
    /// False only if no encoding of the type begins with the octet of the tag.
    fn may_start_with(tag: Tag) -> bool;
}

/// A type with an `==` that is true exactly if both sides hold the same value.
pub trait EqualByValue: Encoding + PartialEq {}

/// Whether both sides hold the same value: `==`, with a contract that says so of any type.
#[inline(always)]
pub fn equal<T: EqualByValue>(left: &T, right: &T) -> bool {
    *left == *right
}

/// A tag as a type, which `TaggedBy` names for types of any lifetimes and parameters.
pub trait TagMarker {
    /// The tag.
    const TAG: Tag;
}

/// A type whose encodings have the tag of a marker.
pub trait TaggedBy {
    /// The marker of the tag. Types with the same marker can't be told apart by their tags.
    type Marker: TagMarker;
}

/// A type whose encodings all have one tag.
pub trait FixedTag {
    /// The tag that each encoding begins with.
    const TAG: Tag;
}

impl<T: TaggedBy> FixedTag for T {
    const TAG: Tag = T::Marker::TAG;
}

/// The marker of INTEGER.
pub struct IntegerTag;

impl TagMarker for IntegerTag {
    const TAG: Tag = Tag::INTEGER;
}

/// The marker of SEQUENCE and SEQUENCE OF.
pub struct SequenceTag;

impl TagMarker for SequenceTag {
    const TAG: Tag = Tag::SEQUENCE;
}

/// A type whose encodings are SEQUENCEs.
pub trait Sequence<'a>: FixedTag {}

impl<'a, T: TaggedBy<Marker = SequenceTag>> Sequence<'a> for T {}

impl<T: Contents + FixedTag> Encoding for T {
    #[inline(always)]
    fn may_start_with(tag: Tag) -> bool {
        T::TAG.octet() == tag.octet()
    }
}
