//! Parameters of RSAES-OAEP (RFC 8017 A.2.1).

use crate::Result;
use crate::algorithm::AlgorithmIdentifier;
use crate::algorithms::{PSpecified, RsaesOaep};
use crate::der::asn1::{Any, AnyRef, ObjectIdentifier, ObjectIdentifierRef};
use crate::der::{Error, ErrorKind, Tag};
use crate::identifier::{AssociatedOid, Identifier, OfIdentifier};
use crate::params::{self, mgf1, plain};
use crate::proved::pkcs1_params::{self as proved, EncodeParams, FromAlgorithm};
use crate::proved::spki_core::AlgorithmView;
#[cfg(feature = "alloc")]
use crate::rattle_std::alloc::Global;
use crate::values::{Held, readable};

/// Parameters of RSAES-OAEP. A `P` holds the parameters of a hash function or a source, an `O` each object identifier:
/// see `RsaOaepParamsRef`, `RsaOaepParamsOwned` and `RsaOaepParamsView`. Explicit defaults are read, but not written.
///
/// ```text
/// RSAES-OAEP-params ::= SEQUENCE {
///     hashAlgorithm     [0] HashAlgorithm     DEFAULT sha1,
///     maskGenAlgorithm  [1] MaskGenAlgorithm  DEFAULT mgf1SHA1,
///     pSourceAlgorithm  [2] PSourceAlgorithm  DEFAULT pSpecifiedEmpty
/// }
/// ```
#[derive(Clone, Copy, Debug, PartialEq, Eq, Hash)]
pub struct RsaOaepParams<P, O = ObjectIdentifier> {
    /// The hash function; SHA-1 with NULL by default.
    pub hash: AlgorithmIdentifier<P, O>,
    /// The mask generation function and its hash function; MGF1 with SHA-1 with NULL by default.
    pub mask_gen: AlgorithmIdentifier<AlgorithmIdentifier<P, O>, O>,
    /// The source of the label; pSpecified with an empty OCTET STRING by default.
    pub p_source: AlgorithmIdentifier<P, O>,
}

/// `RsaOaepParams` whose algorithms have borrowed parameters.
pub type RsaOaepParamsRef<'a> = RsaOaepParams<AnyRef<'a>>;

/// `RsaOaepParams` that own the parameters of their algorithms.
pub type RsaOaepParamsOwned = RsaOaepParams<Any>;

/// `RsaOaepParams` over their encoding, whose octets are their identifiers.
pub type RsaOaepParamsView<'a> = RsaOaepParams<AnyRef<'a>, ObjectIdentifierRef<'a>>;

impl<'a> RsaOaepParams<AnyRef<'a>> {
    /// The hash function D with NULL, MGF1 with the same hash function, and the empty label.
    #[must_use]
    pub fn new<D: AssociatedOid>() -> RsaOaepParams<AnyRef<'a>> {
        RsaOaepParams::new_with_label::<D>(&[])
    }

    /// The hash function D with NULL, MGF1 with the same hash function, and this label.
    /// # Panics
    /// The label is longer than `Length::MAX`.
    #[must_use]
    pub fn new_with_label<D: AssociatedOid>(label: &'a (impl AsRef<[u8]> + ?Sized)) -> RsaOaepParams<AnyRef<'a>> {
        let label = AnyRef::new(Tag::OCTET_STRING, label.as_ref()).expect("the label is too long");
        let p_source = AlgorithmIdentifier { oid: PSpecified::OID, parameters: Some(readable(label)) };
        RsaOaepParams { hash: plain::<D>(), mask_gen: mgf1::<D>(), p_source }
    }
}

impl<'a, O: OfIdentifier<'a>> RsaOaepParams<AnyRef<'a>, O> {
    /// Like `try_from`, but accepts the shortest encoding only, in which no default is written.
    /// # Errors
    /// As of `try_from`, and `Noncanonical` with the tag of the first default that is written.
    pub fn from_der_strict(bytes: &'a [u8]) -> Result<Self> {
        proved::RsaOaepParamsView::from_der_strict(bytes).map(Self::of_view)
    }

    /// The parameters in an algorithm identifier.
    /// # Errors
    /// `OidUnknown` if it is of another algorithm, `ParametersMissing`, or as of `try_from`.
    pub fn from_algorithm(algorithm: &AlgorithmIdentifier<AnyRef<'a>>) -> Result<Self> {
        algorithm.assert_algorithm_oid(RsaesOaep::OID)?;
        Self::try_from(algorithm.parameters.ok_or(Error::new(ErrorKind::ParametersMissing))?)
    }

    /// The parameters in the encoding of an algorithm identifier, such as that of an encrypted key in CMS.
    /// # Errors
    /// As of `from_algorithm`, or the slice is no algorithm identifier.
    pub fn from_algorithm_der(bytes: &'a [u8]) -> Result<Self> {
        proved::RsaOaepParamsView::from_algorithm_der(bytes).map(Self::of_view)
    }

    /// Like `from_algorithm_der`, but accepts the shortest encoding only.
    /// # Errors
    /// As of `from_algorithm_der`, and `Noncanonical` with the tag of the first default that is written.
    pub fn from_algorithm_der_strict(bytes: &'a [u8]) -> Result<Self> {
        proved::RsaOaepParamsView::from_algorithm_der_strict(bytes).map(Self::of_view)
    }
}

impl<P: Held, O: Identifier> RsaOaepParams<P, O> {
    /// The octets of the label, or `None` if the source isn't pSpecified with an OCTET STRING.
    #[inline]
    #[must_use]
    pub fn label(&self) -> Option<&[u8]> {
        // `label` doesn't look at the other fields, so nothing of them is copied.
        let p_source = self.p_source.as_view();
        let mask_gen = AlgorithmView { oid: p_source.oid, parameters: None };
        proved::RsaOaepParamsView { hash: p_source, mask_gen, p_source }.label()
    }

    /// As of [`RsaPssParams::uses_hash`](crate::RsaPssParams::uses_hash).
    #[must_use]
    pub fn uses_hash<D: AssociatedOid>(&self) -> bool {
        params::uses_hash::<D, P, O>(&self.hash, &self.mask_gen)
    }

    /// Whether both mean the same, as of [`RsaPssParams::means_same`](crate::RsaPssParams::means_same).
    #[must_use]
    pub fn means_same<Q: Held, R: Identifier>(&self, other: &RsaOaepParams<Q, R>) -> bool {
        self.view().means_same(&other.view())
    }

    /// How many fields equal their defaults.
    #[must_use]
    pub fn default_fields(&self) -> u8 {
        self.view().default_fields()
    }

    /// Writes one spelling to the front of the slice, and returns that part.
    /// # Errors
    /// As of [`RsaPssParams::encode_spelling`](crate::RsaPssParams::encode_spelling), which says what the mask means.
    pub fn encode_spelling<'o>(&self, mask: u8, out: &'o mut [u8]) -> Result<&'o [u8]> {
        let view = self.view();
        if mask >> view.default_fields() != 0 {
            return Err(Error::new(ErrorKind::Value { tag: Tag::SEQUENCE }).into());
        }
        (&view).encode_spelling(mask, out)
    }

    /// All spellings, each at the index that is its mask: two to the number of default fields.
    /// # Errors
    /// `Overflow` or `OutOfMemory`.
    #[cfg(feature = "alloc")]
    pub fn spellings(&self) -> Result<alloc::vec::Vec<alloc::vec::Vec<u8>>> {
        Ok(params::listed(self.view().spellings(Global)?)?)
    }

    /// Writes the shortest encoding of the algorithm identifier with these parameters to the front of the slice, and
    /// returns that part.
    /// # Errors
    /// `Overflow`, or `NoRoom` if the slice is too short.
    pub fn encode_algorithm<'o>(&self, out: &'o mut [u8]) -> Result<&'o [u8]> {
        let length = self.view().encode_algorithm(out)?;
        Ok(&out[..length])
    }

    /// Returns the shortest encoding of the algorithm identifier with these parameters.
    /// # Errors
    /// `Overflow` or `OutOfMemory`.
    #[cfg(feature = "alloc")]
    pub fn to_algorithm_der(&self) -> Result<alloc::vec::Vec<u8>> {
        Ok(crate::der::to_der(&self.view().to_algorithm())?)
    }
}
