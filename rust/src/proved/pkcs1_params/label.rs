// Made of crates/pkcs1_params/src/label.rt by tools/erase/erase.py, and not to be edited.
//! pSourceAlgorithm, the source of the label of RSAES-OAEP (RFC 8017 A.2.1): parameters with a label, how long it may
//! be, and the label of parameters.

use crate::proved::pkcs1_params::hash_fields::is_pkcs1;
use crate::proved::pkcs1_params::oaep::{RsaOaepParams, RsaOaepParamsRef, RsaOaepParamsView};
use crate::proved::der_core::{Encode, EncodeValue, Length, Memory, Result, Tag, TagNumber};
use crate::proved::spki_core::{
    AlgorithmIdentifier, AlgorithmIdentifierOf, AlgorithmIdentifierRef, AlgorithmView, AnyParams,
    AnyRef, AnyValue, AssociatedOid, IdentifierValue, ObjectIdentifier,
};

/// id-pSpecified: the label is in the parameters (RFC 8017 A.2.1).
pub struct PSpecified;

impl AssociatedOid for PSpecified {
    const OID: &'static [u8] = &[0x2a, 0x86, 0x48, 0x86, 0xf7, 0x0d, 0x01, 0x01, 0x09];

    fn octets() -> &'static [u8] {
        Self::OID
    }
}

/// pSpecified with the empty label.
#[inline(always)]
pub(crate) fn empty_source<O: IdentifierValue, P: AnyParams<M>, M: Memory>(
    memory: M,
) -> AlgorithmIdentifierOf<O, P> {
    AlgorithmIdentifierOf {
        oid: O::named::<PSpecified>(),
        parameters: Some(P::empty(memory, Tag::OCTET_STRING)),
    }
}

/// Whether these are the octets of id-pSpecified.
#[inline(always)]
pub fn is_p_specified(octets: &[u8]) -> bool {
    is_pkcs1(octets, 9)
}

/// The label of a source, or `None` if it isn't pSpecified with an OCTET STRING.
pub(crate) fn label_of<'a>(source: &AlgorithmView<'a, AnyRef<'a>>) -> Option<&'a [u8]> {
    match source.parameters {
        Some(any) if any.tag() == Tag::OCTET_STRING && is_p_specified(source.oid.as_bytes()) => {
            Some(any.value())
        }
        _ => None,
    }
}

/// Whether two sources are equal.
pub(crate) fn is_same_source(
    a: &AlgorithmView<'_, AnyRef<'_>>,
    b: &AlgorithmView<'_, AnyRef<'_>>,
) -> bool {
    a.oid.as_bytes() == b.oid.as_bytes() && a.parameters == b.parameters
}

/// pSpecified with this label.
pub(crate) fn source_of<'a>(label: &'a [u8]) -> AlgorithmIdentifierRef<'a> {
    match AnyRef::new(Tag::OCTET_STRING, label) {
        Ok(octets) => AlgorithmIdentifier {
            oid: ObjectIdentifier::of::<PSpecified>(),
            parameters: Some(octets),
        },
        Err(_) => unreachable!(),
    }
}

impl<'a> RsaOaepParams<AnyRef<'a>> {
    /// The hash function D with NULL, MGF1 with the same hash function, and this label. Requires that parameters with
    /// each label of this length have an encoding of at most `Length::MAX` octets, as `label_fits` says. With an empty
    /// label the result is that of `new`.
    pub(crate) fn new_with_label<D: AssociatedOid>(label: &'a [u8]) -> RsaOaepParams<AnyRef<'a>> {
        RsaOaepParams {
            p_source: source_of(label),
            ..RsaOaepParams::new::<D>()
        }
    }

    /// Whether parameters with each label of this many bytes have an encoding of at most `Length::MAX` octets. If not,
    /// they have none with any such label.
    #[must_use]
    pub fn label_fits<D: AssociatedOid>(len: usize) -> bool {
        labelled_len::<D>(len).is_ok()
    }
}

impl<P: AnyValue> RsaOaepParams<P> {
    /// The octets of the label, or `None` if the source isn't pSpecified with an OCTET STRING.
    #[must_use]
    pub fn label(&self) -> Option<&[u8]> {
        label_of(&self.p_source.as_view())
    }
}

impl<'a> RsaOaepParamsView<'a> {
    /// Like `RsaOaepParams::label`.
    #[must_use]
    pub fn label(&self) -> Option<&'a [u8]> {
        label_of(&self.p_source)
    }
}

/// The length of an encoding with contents of this length.
fn tagged_len(contents: Result<Length>, tag: Tag) -> Result<Length> {
    contents?.for_tlv(tag)
}

/// The length of two parts.
fn sum_len(first: Result<Length>, second: Result<Length>) -> Result<Length> {
    first?.checked_add(second?)
}

/// The length of what is written for the source of a label of this length.
fn source_len(len: usize) -> Result<Length> {
    if len == 0 {
        return Ok(Length::ZERO);
    }
    let identifier = ObjectIdentifier::of::<PSpecified>().encoded_len();
    let octets = tagged_len(Length::try_from(len), Tag::OCTET_STRING);
    let source = tagged_len(sum_len(identifier, octets), Tag::SEQUENCE);
    tagged_len(source, Tag::context(TagNumber::new(2)))
}

/// The length of the shortest encoding of parameters with a label of this length.
fn labelled_len<D: AssociatedOid>(len: usize) -> Result<Length> {
    let hash_fields = RsaOaepParamsRef::new::<D>().value_len();
    tagged_len(sum_len(hash_fields, source_len(len)), Tag::SEQUENCE)
}
