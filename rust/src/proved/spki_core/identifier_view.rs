// Made of crates/spki_core/src/identifier_view.rt by tools/erase/erase.py, and not to be edited.
//! Object identifiers that borrow their octets from the input.

use crate::proved::spki_core::object_identifier::{
    AssociatedOid, ObjectIdentifier, ObjectIdentifierTag, is_identifier,
};
use crate::proved::der_core::{
    Contents, DecodeValue, EncodeValue, Error, ErrorKind, Memory, Prepend, Result, TaggedBy, Writer,
};

/// An object identifier over its contents octets (X.690 8.19). Only `to_object_identifier` copies them.
#[derive(Clone, Copy)]
pub struct IdentifierView<'a> {
    octets: &'a [u8],
}

impl<'a> IdentifierView<'a> {
    /// The identifier with these contents octets, which are known to be one. `from_bytes` tests them.
    #[inline(always)]
    pub(crate) fn over(octets: &'a [u8]) -> IdentifierView<'a> {
        IdentifierView { octets }
    }

    /// The identifier with these contents octets. `OidMalformed` exactly if they are those of none.
    #[inline(always)]
    pub fn from_bytes(bytes: &'a [u8]) -> Result<IdentifierView<'a>> {
        if !is_identifier(bytes) {
            return Err(Error::new(ErrorKind::OidMalformed));
        }
        Ok(IdentifierView::over(bytes))
    }

    /// The contents octets, which are valid: at least one, at most 39.
    #[inline(always)]
    #[must_use]
    pub fn as_bytes(&self) -> &'a [u8] {
        self.octets
    }

    /// Copies the octets.
    #[inline(always)]
    #[must_use]
    pub fn to_object_identifier(self) -> ObjectIdentifier {
        ObjectIdentifier::new(self.octets)
    }
}

/// A type that holds an object identifier: `ObjectIdentifier` or `IdentifierView`.
pub trait IdentifierValue: Sized {
    /// The identifier of an algorithm.
    fn named<D: AssociatedOid>() -> Self;

    /// The identifier, borrowed.
    fn as_identifier_view(&self) -> IdentifierView<'_>;
}

impl<'a> IdentifierValue for IdentifierView<'a> {
    #[inline(always)]
    fn named<D: AssociatedOid>() -> IdentifierView<'a> {
        IdentifierView::over(D::octets())
    }

    #[inline(always)]
    fn as_identifier_view(&self) -> IdentifierView<'_> {
        *self
    }
}

impl IdentifierValue for ObjectIdentifier {
    #[inline(always)]
    fn named<D: AssociatedOid>() -> ObjectIdentifier {
        ObjectIdentifier::of::<D>()
    }

    #[inline(always)]
    fn as_identifier_view(&self) -> IdentifierView<'_> {
        IdentifierView::over(self.as_bytes())
    }
}

impl Contents for IdentifierView<'_> {}

impl TaggedBy for IdentifierView<'_> {
    type Marker = ObjectIdentifierTag;
}

impl<'a, M: Memory> DecodeValue<&'a [u8], M> for IdentifierView<'a> {
    #[inline(always)]
    fn read_value(_memory: M, contents: &'a [u8]) -> Result<IdentifierView<'a>> {
        IdentifierView::from_bytes(contents)
    }
}

impl EncodeValue for IdentifierView<'_> {
    #[inline(always)]
    fn check_value(&self) -> Result<()> {
        Ok(())
    }

    #[inline(always)]
    fn prepend_value<W: Prepend>(&self, writer: &mut W) {
        writer.prepend(self.as_bytes());
    }

    fn append_value<W: Writer>(&self, writer: &mut W) -> Result<()> {
        writer.write(self.as_bytes())
    }
}
