// Made of crates/der_core/src/null.rt by tools/erase/erase.py, and not to be edited.
//! NULL (X.690 8.8).

use crate::proved::der_core::grammar::{TagMarker, TaggedBy};
use crate::proved::der_core::record::{EncodeInParts, Record, RowOperation};
use crate::proved::der_core::tag::Tag;

/// The tag of NULL.
pub struct NullTag;

impl TagMarker for NullTag {
    const TAG: Tag = Tag::NULL;
}

/// NULL, which has no contents octets (8.8.2). `TrailingData` if there are some.
#[derive(Clone, Copy, Debug, PartialEq, Eq, Hash)]
pub struct Null;

impl TaggedBy for Null {
    type Marker = NullTag;
}

impl Record for Null {
    type Fields = ();

    fn from_fields(_row: ()) -> Null {
        Null
    }
}

impl EncodeInParts for Null {
    #[inline(always)]
    fn with_row<O: RowOperation>(&self, operation: &mut O) -> O::Output {
        operation.apply(&())
    }
}
