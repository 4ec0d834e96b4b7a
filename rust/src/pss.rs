//! Parameters of RSASSA-PSS (RFC 8017 A.2.3).

use crate::Result;
use crate::algorithm::AlgorithmIdentifier;
use crate::algorithms::RsassaPss;
use crate::der::asn1::{Any, AnyRef, ObjectIdentifier, ObjectIdentifierRef};
use crate::der::{Error, ErrorKind, Tag};
use crate::identifier::{AssociatedOid, Identifier, OfIdentifier};
use crate::params::{self, mgf1, plain};
use crate::proved::pkcs1_params::{self as proved, EncodeParams, FromAlgorithm, TrailerField};
#[cfg(feature = "alloc")]
use crate::rattle_std::alloc::Global;
use crate::values::Held;

/// Parameters of RSASSA-PSS. A `P` holds the parameters of a hash function, an `O` each object identifier: see
/// `RsaPssParamsRef`, `RsaPssParamsOwned` and `RsaPssParamsView`. Explicit defaults are read, but not written.
///
/// ```text
/// RSASSA-PSS-params ::= SEQUENCE {
///     hashAlgorithm     [0] HashAlgorithm     DEFAULT sha1,
///     maskGenAlgorithm  [1] MaskGenAlgorithm  DEFAULT mgf1SHA1,
///     saltLength        [2] INTEGER           DEFAULT 20,
///     trailerField      [3] TrailerField      DEFAULT trailerFieldBC
/// }
/// ```
///
/// ```
/// use pkcs1_proved::{RsaPssParamsRef, RsaPssParamsView, Sha256, der::Encode};
///
/// let params = RsaPssParamsRef::new::<Sha256>(32);
/// let mut room = [0; 80];
/// let der = params.encode_to_slice(&mut room)?;
/// let view = RsaPssParamsView::from_der_strict(der)?;
/// assert!(view.uses_hash::<Sha256>() && view.salt_len == 32);
/// # Ok::<(), pkcs1_proved::Error>(())
/// ```
#[derive(Clone, Copy, Debug, PartialEq, Eq, Hash)]
pub struct RsaPssParams<P, O = ObjectIdentifier> {
    /// The hash function; SHA-1 with NULL by default.
    pub hash: AlgorithmIdentifier<P, O>,
    /// The mask generation function and its hash function; MGF1 with SHA-1 with NULL by default.
    pub mask_gen: AlgorithmIdentifier<AlgorithmIdentifier<P, O>, O>,
    /// The salt length in octets, from 0 to 255; 20 by default.
    pub salt_len: u8,
    /// The trailer field of an encoded message; `BC` by default.
    pub trailer_field: TrailerField,
}

/// `RsaPssParams` whose algorithms have borrowed parameters.
pub type RsaPssParamsRef<'a> = RsaPssParams<AnyRef<'a>>;

/// `RsaPssParams` that own the parameters of their algorithms.
pub type RsaPssParamsOwned = RsaPssParams<Any>;

/// `RsaPssParams` over their encoding, whose octets are their identifiers.
pub type RsaPssParamsView<'a> = RsaPssParams<AnyRef<'a>, ObjectIdentifierRef<'a>>;

impl<P, O> RsaPssParams<P, O> {
    /// The default salt length in octets: that of a SHA-1 hash.
    pub const SALT_LEN_DEFAULT: u8 = 20;
}

impl<'a> RsaPssParams<AnyRef<'a>> {
    /// The hash function D with NULL, MGF1 with the same hash function, a salt of this many octets, and the trailer
    /// field.
    #[must_use]
    pub const fn new<D: AssociatedOid>(salt_len: u8) -> RsaPssParams<AnyRef<'a>> {
        let (hash, mask_gen) = (plain::<D>(), mgf1::<D>());
        RsaPssParams { hash, mask_gen, salt_len, trailer_field: TrailerField::BC }
    }
}

impl<'a, O: OfIdentifier<'a>> RsaPssParams<AnyRef<'a>, O> {
    /// Like `try_from`, but accepts the shortest encoding only, in which no default is written.
    /// # Errors
    /// As of `try_from`, and `Noncanonical` with the tag of the first default that is written.
    pub fn from_der_strict(bytes: &'a [u8]) -> Result<Self> {
        proved::RsaPssParamsView::from_der_strict(bytes).map(Self::of_view)
    }

    /// The parameters in an algorithm identifier.
    /// # Errors
    /// `OidUnknown` if it is of another algorithm, `ParametersMissing`, or as of `try_from`.
    pub fn from_algorithm(algorithm: &AlgorithmIdentifier<AnyRef<'a>>) -> Result<Self> {
        algorithm.assert_algorithm_oid(RsassaPss::OID)?;
        Self::try_from(algorithm.parameters.ok_or(Error::new(ErrorKind::ParametersMissing))?)
    }

    /// The parameters in the encoding of an algorithm identifier, such as a certificate's signatureAlgorithm.
    /// # Errors
    /// As of `from_algorithm`, or the slice is no algorithm identifier.
    pub fn from_algorithm_der(bytes: &'a [u8]) -> Result<Self> {
        proved::RsaPssParamsView::from_algorithm_der(bytes).map(Self::of_view)
    }

    /// Like `from_algorithm_der`, but accepts the shortest encoding only.
    /// # Errors
    /// As of `from_algorithm_der`, and `Noncanonical` with the tag of the first default that is written.
    pub fn from_algorithm_der_strict(bytes: &'a [u8]) -> Result<Self> {
        proved::RsaPssParamsView::from_algorithm_der_strict(bytes).map(Self::of_view)
    }
}

impl<P: Held, O: Identifier> RsaPssParams<P, O> {
    /// Whether the hash function is D, and the mask generation function is MGF1 with D: each of them with NULL or
    /// without parameters.
    #[must_use]
    pub fn uses_hash<D: AssociatedOid>(&self) -> bool {
        params::uses_hash::<D, P, O>(&self.hash, &self.mask_gen)
    }

    /// Whether both mean the same: all fields are equal, where a hash function with NULL and one without parameters are
    /// alike, in the mask generation function too. `==` tells these apart.
    ///
    /// ```
    /// use pkcs1_proved::{RsaPssParamsRef, spki::AlgorithmIdentifier};
    ///
    /// let params = RsaPssParamsRef::default();
    /// let hash = AlgorithmIdentifier { parameters: None, ..params.hash };
    /// let other = RsaPssParamsRef { hash, ..params };
    /// assert!(params.means_same(&other) && params != other);
    /// ```
    #[must_use]
    pub fn means_same<Q: Held, R: Identifier>(&self, other: &RsaPssParams<Q, R>) -> bool {
        self.view().means_same(&other.view())
    }

    /// How many fields equal their defaults.
    #[must_use]
    pub fn default_fields(&self) -> u8 {
        self.view().default_fields()
    }

    /// Writes one spelling to the front of the slice, and returns that part. Bit j of the mask says whether the j-th of
    /// the fields that equal their defaults is written. Mask 0 gives the shortest encoding. On an error the slice is as
    /// it was.
    /// # Errors
    /// `Value` of SEQUENCE if the mask isn't below two to the number of these fields, `Overflow`, or `NoRoom` if the
    /// slice is too short.
    pub fn encode_spelling<'o>(&self, mask: u8, out: &'o mut [u8]) -> Result<&'o [u8]> {
        let view = self.view();
        if mask >> view.default_fields() != 0 {
            return Err(Error::new(ErrorKind::Value { tag: Tag::SEQUENCE }).into());
        }
        (&view).encode_spelling(mask, out)
    }

    /// All spellings, each at the index that is its mask: two to the number of default fields.
    /// # Errors
    /// `Overflow` or `OutOfMemory`.
    #[cfg(feature = "alloc")]
    pub fn spellings(&self) -> Result<alloc::vec::Vec<alloc::vec::Vec<u8>>> {
        Ok(params::listed(self.view().spellings(Global)?)?)
    }

    /// Writes the shortest encoding of the algorithm identifier with these parameters to the front of the slice, and
    /// returns that part.
    /// # Errors
    /// `Overflow`, or `NoRoom` if the slice is too short.
    pub fn encode_algorithm<'o>(&self, out: &'o mut [u8]) -> Result<&'o [u8]> {
        let length = self.view().encode_algorithm(out)?;
        Ok(&out[..length])
    }

    /// Returns the shortest encoding of the algorithm identifier with these parameters.
    /// # Errors
    /// `Overflow` or `OutOfMemory`.
    #[cfg(feature = "alloc")]
    pub fn to_algorithm_der(&self) -> Result<alloc::vec::Vec<u8>> {
        Ok(crate::der::to_der(&self.view().to_algorithm())?)
    }
}
