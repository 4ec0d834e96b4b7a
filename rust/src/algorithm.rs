//! Algorithm identifiers.

use crate::der::asn1::{Any, AnyRef, ObjectIdentifier, ObjectIdentifierRef, OctetStringRef, UintRef};
use crate::der::{self, ErrorKind, asn1::Uint, decoded, encoded};
use crate::identifier::{AssociatedOid, Identifier, OfIdentifier};
use crate::proved::der_core::{self as proved, read_borrowed};
use crate::proved::pkcs1::{TrailerField, Version};
use crate::proved::spki_core::AlgorithmView;
use crate::values::{Held, Number};
use core::convert::identity;

/// An identifier, and parameters that are there or not (RFC 5280 4.1.1.2). An `O` holds the object identifier.
///
/// ```text
/// AlgorithmIdentifier ::= SEQUENCE {
///     algorithm   OBJECT IDENTIFIER,
///     parameters  ANY DEFINED BY algorithm OPTIONAL
/// }
/// ```
#[derive(Clone, Copy, Debug, PartialEq, Eq, PartialOrd, Ord, Hash)]
pub struct AlgorithmIdentifier<P, O = ObjectIdentifier> {
    /// The identifier of the algorithm.
    pub oid: O,
    /// The parameters of the algorithm. `None` means that no octet follows the identifier, which is another value than
    /// NULL.
    pub parameters: Option<P>,
}

/// An algorithm identifier with borrowed parameters of any tag.
pub type AlgorithmIdentifierRef<'a> = AlgorithmIdentifier<AnyRef<'a>>;

/// An algorithm identifier that owns its parameters.
pub type AlgorithmIdentifierOwned = AlgorithmIdentifier<Any>;

/// A mask generation function, whose parameters name a hash function.
pub(crate) type MaskGen<P, O = ObjectIdentifier> = AlgorithmIdentifier<AlgorithmIdentifier<P, O>, O>;

/// An algorithm identifier of the proved crates.
type View<'a> = AlgorithmView<'a, AnyRef<'a>>;

impl<P, O> AlgorithmIdentifier<P, O> {
    /// The algorithm of a proved crate, with its parameters held otherwise.
    #[inline(always)]
    pub(crate) fn of<'a, V>(view: AlgorithmView<'a, V>, held: impl FnOnce(V) -> P) -> AlgorithmIdentifier<P, O>
    where
        O: OfIdentifier<'a>,
    {
        AlgorithmIdentifier {
            oid: O::of_identifier(ObjectIdentifierRef(view.oid)),
            parameters: view.parameters.map(held),
        }
    }
}

impl<P, O: Identifier> AlgorithmIdentifier<P, O> {
    /// The algorithm of a proved crate, with its parameters held otherwise.
    #[inline]
    pub(crate) fn lent<'s, V>(&'s self, held: impl FnOnce(&'s P) -> V) -> AlgorithmView<'s, V> {
        AlgorithmView { oid: self.oid.as_identifier().0, parameters: self.parameters.as_ref().map(held) }
    }

    /// The algorithm with its parameters held otherwise.
    #[inline]
    pub(crate) fn map<'s, Q, E>(
        &'s self,
        held: impl FnOnce(&'s P) -> Result<Q, E>,
    ) -> Result<AlgorithmIdentifier<Q>, E> {
        Ok(AlgorithmIdentifier {
            oid: OfIdentifier::of_identifier(self.oid.as_identifier()),
            parameters: self.parameters.as_ref().map(held).transpose()?,
        })
    }
}

impl<P> AlgorithmIdentifier<P> {
    /// The identifier, if it is the expected one.
    /// # Errors
    /// `OidUnknown`.
    pub fn assert_algorithm_oid(&self, expected: ObjectIdentifier) -> der::Result<ObjectIdentifier> {
        if self.oid == expected { Ok(self.oid) } else { Err(der::Error::new(ErrorKind::OidUnknown)) }
    }
}

impl<P: Held, O: Identifier> AlgorithmIdentifier<P, O> {
    #[inline]
    pub(crate) fn as_view(&self) -> View<'_> {
        self.lent(Held::as_any)
    }

    /// Whether this is the hash function D: its identifier, with NULL or without parameters. Both mean the same
    /// function (RFC 4055 2.1), though `==` tells them apart.
    #[must_use]
    pub fn is_hash<D: AssociatedOid>(&self) -> bool {
        self.as_view().is_hash::<D>()
    }

    /// Whether both are the same hash function: the identifiers are equal, and so are the parameters, where NULL and
    /// none are alike.
    #[must_use]
    pub fn is_same_hash<Q: Held, R: Identifier>(&self, other: &AlgorithmIdentifier<Q, R>) -> bool {
        self.as_view().is_same_hash(&other.as_view())
    }

    /// The parameters.
    /// # Errors
    /// `ParametersMissing`.
    pub fn parameters_any(&self) -> der::Result<AnyRef<'_>> {
        self.parameters.as_ref().map(Held::as_any).ok_or(der::Error::new(ErrorKind::ParametersMissing))
    }
}

decoded! {
    {} UintRef<'a>, bytes => read_borrowed(bytes);
    {} Uint, bytes => UintRef::from_der(bytes)?.try_into();
    {} OctetStringRef<'a>, bytes => read_borrowed(bytes);
    {} ObjectIdentifierRef<'a>, bytes => Ok(ObjectIdentifierRef(read_borrowed(bytes)?));
    {} ObjectIdentifier, bytes => Ok(ObjectIdentifierRef::from_der(bytes)?.into());
    {} AnyRef<'a>, bytes => read_borrowed(bytes);
    {} Any, bytes => AnyRef::from_der(bytes)?.try_into();
    {} Version, bytes => proved::Decode::from_der(proved::NoMemory, bytes);
    {} TrailerField, bytes => proved::Decode::from_der(proved::NoMemory, bytes);
    {O: OfIdentifier<'a>} AlgorithmIdentifier<AnyRef<'a>, O>, bytes => {
        Ok(AlgorithmIdentifier::of(read_borrowed(bytes)?, identity))
    };
    {} AlgorithmIdentifier<Any>, bytes => AlgorithmIdentifierRef::from_der(bytes)?.map(|any| Any::try_from(*any));
}
encoded! {
    {} UintRef<'_>, number => *number;
    {} Uint, number => number.as_number();
    {} OctetStringRef<'_>, octets => *octets;
    {} ObjectIdentifierRef<'_>, oid => oid.as_identifier().0;
    {} ObjectIdentifier, oid => oid.as_identifier().0;
    {} AnyRef<'_>, any => *any;
    {} Any, any => any.as_any();
    {} Version, version => *version;
    {} TrailerField, field => *field;
    {P: Held, O: Identifier} AlgorithmIdentifier<P, O>, algorithm => algorithm.as_view();
}
