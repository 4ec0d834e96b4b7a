// Made of crates/pkcs8_core/src/info.rt by tools/erase/erase.py, and not to be edited.
//! PKCS #8 containers of private keys.

use crate::proved::pkcs8_core::attributes::Attributes;
use crate::proved::pkcs1::der::{
    Borrowed, Contents, Decode, EncodeInParts, Encoding, Error, Expected, InParts, Last, LastByTag,
    Memory, OctetStringRef, Result, RowOperation, SequenceTag, TaggedBy, read_borrowed, write_only,
};
use crate::proved::pkcs1::spki::{
    AlgorithmIdentifierOf, AnyRef, IdentifierValue, IdentifierView, ObjectIdentifier,
    ReadIdentifier,
};

/// A private key with its algorithm and attributes (RFC 5208 5). The version is always 0. An `O` holds the object
/// identifier of the algorithm: see `PrivateKeyInfoRef` and `PrivateKeyInfoView`.
///
/// ```text
/// PrivateKeyInfo ::= SEQUENCE {
///     version              INTEGER { v1(0) },
///     privateKeyAlgorithm  AlgorithmIdentifier,
///     privateKey           OCTET STRING,
///     attributes           [0] IMPLICIT Attributes OPTIONAL
/// }
/// ```
#[derive(Clone, Copy)]
pub struct PrivateKeyInfoOf<'a, O> {
    /// The algorithm that the private key is for.
    pub algorithm: AlgorithmIdentifierOf<O, AnyRef<'a>>,
    /// The octets of the private key, in the format of its algorithm.
    pub private_key: OctetStringRef<'a>,
    /// The contents octets of the attributes, which aren't checked.
    pub attributes: Option<&'a [u8]>,
}

/// A container that holds the identifier of its algorithm.
pub type PrivateKeyInfoRef<'a> = PrivateKeyInfoOf<'a, ObjectIdentifier>;

/// A container over its encoding, whose octets are the identifier of its algorithm.
pub type PrivateKeyInfoView<'a> = PrivateKeyInfoOf<'a, IdentifierView<'a>>;

/// The contents octets of the attributes, if there are any.
fn contents_of<'a>(attributes: Option<Attributes<'a>>) -> Option<&'a [u8]> {
    match attributes {
        Some(attributes) => Some(attributes.bytes),
        None => None,
    }
}

/// The parts of a container: its version, its algorithm, its private key, and its attributes.
type InfoParts<'a, O> = (
    Expected<0>,
    (
        AlgorithmIdentifierOf<O, AnyRef<'a>>,
        (OctetStringRef<'a>, LastByTag<Attributes<'a>>),
    ),
);

impl<O: IdentifierValue> Contents for PrivateKeyInfoOf<'_, O> {}

impl<O> TaggedBy for PrivateKeyInfoOf<'_, O> {
    type Marker = SequenceTag;
}

impl<'a, O: ReadIdentifier<'a>> InParts for PrivateKeyInfoOf<'a, O> {
    type Parts = InfoParts<'a, O>;

    #[inline(always)]
    fn from_parts(parts: InfoParts<'a, O>) -> PrivateKeyInfoOf<'a, O> {
        let (_version, (algorithm, (private_key, LastByTag(Last(attributes))))) = parts;
        PrivateKeyInfoOf {
            algorithm,
            private_key,
            attributes: contents_of(attributes),
        }
    }
}

impl<'a, O: ReadIdentifier<'a>> EncodeInParts for PrivateKeyInfoOf<'a, O> {
    #[inline(always)]
    fn with_row<R: RowOperation>(&self, operation: &mut R) -> R::Output {
        let key = (
            Borrowed(&self.private_key),
            LastByTag(Last(self.attributes_encoding())),
        );
        operation.apply(&(Expected::<0>, (Borrowed(&self.algorithm), key)))
    }
}

impl<'a, O: ReadIdentifier<'a>> PrivateKeyInfoOf<'a, O> {
    /// The contents octets of the attributes. `None` exactly if there are none.
    #[must_use]
    pub fn attributes(&self) -> Option<&'a [u8]> {
        self.attributes
    }

    /// The attributes, as a type that can be encoded.
    fn attributes_encoding(&self) -> Option<Attributes<'a>> {
        match self.attributes {
            Some(bytes) => Some(Attributes::new(bytes)),
            None => None,
        }
    }

    /// Does nothing. Its contract: each container has an encoding, within the limit or not, so no call that encodes one
    /// returns `Value`.
    pub fn lemma_has_encoding(&self) {
        let _attributes = self.attributes_encoding();
    }

    /// Writes the container's only encoding, which is that of no other container, to the front of a slice, and returns
    /// its length. The bytes behind it stay as they were. After an error all of the slice does. It is `Overflow`
    /// exactly if the encoding is longer than `Length::MAX`, else `NoRoom` exactly if it is longer than the slice, and
    /// never `Value`.
    pub fn encode_info(&self, out: &mut [u8]) -> Result<usize> {
        self.lemma_has_encoding();
        write_only(self, out)
    }
}

impl<'a, O: ReadIdentifier<'a>> TryFrom<&'a [u8]> for PrivateKeyInfoOf<'a, O> {
    type Error = Error;

    /// Reads a container, and allocates nothing. Ok exactly if the whole slice encodes one: then that container. Err:
    /// the first fault of a container, which of a version other than 0 is `Value` of INTEGER.
    #[inline(always)]
    fn try_from(bytes: &'a [u8]) -> Result<PrivateKeyInfoOf<'a, O>> {
        let view: PrivateKeyInfoView<'a> = read_borrowed(bytes)?;
        Ok(PrivateKeyInfoOf {
            algorithm: O::algorithm_from_view(view.algorithm),
            private_key: view.private_key,
            attributes: view.attributes,
        })
    }
}

/// Reading a container never asks for memory. It does nothing: the law is its contract.
pub fn lemma_containers_take_no_memory<M: Memory>() {}

/// The functions that tell the containers of whole slices, and the RSA keys in them, give one exactly of the bytes that
/// encode it, and this one.
pub fn lemma_containers_decode() {}

/// A container has the encodings of the statement: so a clause of `Decode` or `Encode` at this type is about those.
pub fn lemma_containers_share_the_grammar() {}

/// A container has at most one encoding. Two encodings mean the same container exactly if the shortest encodings of
/// what they mean are equal: they are the same bytes.
pub fn lemma_containers_have_one_encoding() {}

/// No bytes encode both a container and a key, or both a container and parameters: so a loader may try one after the
/// other.
pub fn lemma_containers_exclude_other_types() {}

/// A clone of a container means the same as the original.
pub fn lemma_container_clones_mean_the_same() {}
