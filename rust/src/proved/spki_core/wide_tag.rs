// Made of crates/spki_core/src/wide_tag.rt by tools/erase/erase.py, and not to be edited.
//! Tags of encodings of any tag, as they are held.

use crate::proved::der_core::Tag;
use crate::rattle_std::fmt;

/// A tag in eight octets: with one, `AnyRef` would have padding, and would be copied piece by piece.
#[derive(Clone, Copy, PartialEq, Eq, Hash)]
pub(crate) struct WideTag {
    pub(crate) octet: u64,
}

impl WideTag {
    #[inline(always)]
    pub(crate) const fn of(tag: Tag) -> WideTag {
        WideTag {
            octet: tag.octet() as u64,
        }
    }

    #[inline(always)]
    pub(crate) fn tag(self) -> Tag {
        Tag {
            octet: self.octet as u8,
        }
    }
}

impl fmt::Debug for WideTag {
    fn fmt(&self, f: &mut fmt::Formatter<'_>) -> fmt::Result {
        self.tag().fmt(f)
    }
}
