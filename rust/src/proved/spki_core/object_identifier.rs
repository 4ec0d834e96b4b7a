// Made of crates/spki_core/src/object_identifier.rt by tools/erase/erase.py, and not to be edited.
//! Object identifiers.

use crate::proved::spki_core::identifier_view::IdentifierView;
use crate::proved::der_core::{
    Contents, DecodeValue, EncodeValue, EqualByValue, ErrorKind, Memory, Prepend, Result, Tag,
    TagMarker, TaggedBy, Writer,
};
use crate::rattle_std::hash::{Hash, Hasher};

/// An object identifier as its contents octets (X.690 8.19): at most 39, so nothing is allocated.
#[derive(Clone, Copy, Debug)]
pub struct ObjectIdentifier {
    octets: [u8; 39],
    length: u8,
}

/// Whether a subidentifier starts at the index: no octets precede it, or the last of a subidentifier does.
fn is_start(octets: &[u8], index: usize) -> bool {
    index == 0 || octets[index - 1] < 0x80
}

/// Whether no octet is 80, eight or four at a time.
fn has_no_80(octets: &[u8]) -> bool {
    match octets {
        [a, b, c, d, e, f, g, h, later @ ..] => {
            let eight = (*a != 0x80)
                & (*b != 0x80)
                & (*c != 0x80)
                & (*d != 0x80)
                & (*e != 0x80)
                & (*f != 0x80)
                & (*g != 0x80)
                & (*h != 0x80);
            eight && has_no_80(later)
        }
        [a, b, c, d, later @ ..] => {
            let four = (*a != 0x80) & (*b != 0x80) & (*c != 0x80) & (*d != 0x80);
            four && has_no_80(later)
        }
        [a, later @ ..] => *a != 0x80 && has_no_80(later),
        [] => true,
    }
}

/// Whether these are whole subidentifiers, for sure: no octet is 80, and the last one ends a subidentifier.
#[inline(always)]
fn ends_plainly(octets: &[u8]) -> bool {
    match octets {
        [front @ .., last] => *last < 0x80 && has_no_80(front),
        [] => false,
    }
}

/// Whether the octets are one or more whole subidentifiers, of at most 39 octets together.
#[inline(always)]
pub(crate) fn is_identifier(octets: &[u8]) -> bool {
    !octets.is_empty() && octets.len() <= 39 && (ends_plainly(octets) || ends_well(octets))
}

/// Whether these are whole subidentifiers, octet by octet.
fn ends_well(octets: &[u8]) -> bool {
    for index in 0..octets.len() {
        if octets[index] == 0x80 && is_start(octets, index) {
            return false;
        }
    }
    is_start(octets, octets.len())
}

/// A type that names an algorithm, by its object identifier.
pub trait AssociatedOid {
    /// The contents octets of the identifier (X.690 8.19), without tag and length. They must be those of `octets`: no
    /// proof compares them.
    const OID: &'static [u8];

    /// `OID`, the contents octets of the identifier, for contracts.
    fn octets() -> &'static [u8];
}

/// The octets with zeros after them.
fn with_zeros(octets: &[u8]) -> [u8; 39] {
    let mut padded = [0; 39];
    padded[..octets.len()].copy_from_slice(octets);
    padded
}

impl ObjectIdentifier {
    /// The octets are known to be valid.
    pub(crate) fn new(bytes: &[u8]) -> ObjectIdentifier {
        ObjectIdentifier {
            octets: with_zeros(bytes),
            length: bytes.len() as u8,
        }
    }

    /// The identifier with these contents octets. `OidMalformed` exactly if they are those of none.
    pub fn from_bytes(bytes: &[u8]) -> Result<ObjectIdentifier> {
        Ok(IdentifierView::from_bytes(bytes)?.to_object_identifier())
    }

    /// The contents octets, which are valid: at least one, at most 39.
    #[must_use]
    pub fn as_bytes(&self) -> &[u8] {
        &self.octets[..self.length as usize]
    }

    /// The identifier of an algorithm.
    #[inline(always)]
    #[must_use]
    pub fn of<D: AssociatedOid>() -> ObjectIdentifier {
        ObjectIdentifier::new(D::octets())
    }
}

impl PartialEq for ObjectIdentifier {
    /// True exactly if the octets are equal.
    fn eq(&self, other: &ObjectIdentifier) -> bool {
        self.as_bytes() == other.as_bytes()
    }
}

impl Eq for ObjectIdentifier {}

impl Hash for ObjectIdentifier {
    /// Hashes the octets, as those of a slice are hashed.
    fn hash<H: Hasher>(&self, state: &mut H) {
        self.as_bytes().hash(state);
    }
}

/// The tag of OBJECT IDENTIFIER.
pub struct ObjectIdentifierTag;

impl TagMarker for ObjectIdentifierTag {
    const TAG: Tag = Tag::OBJECT_IDENTIFIER;
}

impl Contents for ObjectIdentifier {}

impl TaggedBy for ObjectIdentifier {
    type Marker = ObjectIdentifierTag;
}

impl EqualByValue for ObjectIdentifier {}

impl<'a, M: Memory> DecodeValue<&'a [u8], M> for ObjectIdentifier {
    #[inline(always)]
    fn read_value(_memory: M, contents: &'a [u8]) -> Result<ObjectIdentifier> {
        ObjectIdentifier::from_bytes(contents)
    }
}

impl EncodeValue for ObjectIdentifier {
    #[inline(always)]
    fn check_value(&self) -> Result<()> {
        Ok(())
    }

    #[inline(always)]
    fn prepend_value<W: Prepend>(&self, writer: &mut W) {
        writer.prepend(self.as_bytes());
    }

    fn append_value<W: Writer>(&self, writer: &mut W) -> Result<()> {
        writer.write(self.as_bytes())
    }
}
