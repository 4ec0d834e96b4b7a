// Made of crates/spki_core/src/algorithm_identifier.rt by tools/erase/erase.py, and not to be edited.
//! Algorithm identifiers (RFC 5280 4.1.1.2).

use crate::proved::spki_core::any::{AnyRef, AnyValue};
use crate::proved::spki_core::identifier_view::{IdentifierValue, IdentifierView};
use crate::proved::spki_core::object_identifier::{AssociatedOid, ObjectIdentifier};
use crate::proved::der_core::{
    BorrowedLast, Contents, Decode, DecodeParts, DecodeValue, Encode, EncodeValue, Encoding,
    EqualByValue, Error, ErrorKind, Last, Memory, Prepend, Result, SequenceTag, TaggedBy, TryClone,
    Writer,
};
use crate::rattle_std::alloc::Global;
use crate::rattle_std::fmt;

/// An identifier, and parameters that are there or not (RFC 5280 4.1.1.2). An `O` holds the object identifier: see
/// `AlgorithmIdentifier` and `AlgorithmView`.
///
/// ```text
/// AlgorithmIdentifier ::= SEQUENCE {
///     algorithm   OBJECT IDENTIFIER,
///     parameters  ANY DEFINED BY algorithm OPTIONAL
/// }
/// ```
#[derive(Clone, Copy, PartialEq, Eq, Hash)]
pub struct AlgorithmIdentifierOf<O, P> {
    /// The identifier of the algorithm.
    pub oid: O,
    /// The parameters of the algorithm. `None` means that no octet follows the identifier, which is another value than
    /// NULL.
    pub parameters: Option<P>,
}

/// An algorithm identifier that holds its object identifier.
pub type AlgorithmIdentifier<P> = AlgorithmIdentifierOf<ObjectIdentifier, P>;

/// An algorithm identifier with borrowed parameters of any tag.
pub type AlgorithmIdentifierRef<'a> = AlgorithmIdentifier<AnyRef<'a>>;

/// An algorithm identifier that borrows the octets of its object identifier. Only `to_algorithm_identifier` copies
/// them.
pub type AlgorithmView<'a, P> = AlgorithmIdentifierOf<IdentifierView<'a>, P>;

impl<O: fmt::Debug, P: fmt::Debug> fmt::Debug for AlgorithmIdentifierOf<O, P> {
    fn fmt(&self, f: &mut fmt::Formatter<'_>) -> fmt::Result {
        f.debug_struct("AlgorithmIdentifier")
            .field("oid", &self.oid)
            .field("parameters", &self.parameters)
            .finish()
    }
}

impl<O: IdentifierValue, P: Encoding> Contents for AlgorithmIdentifierOf<O, P> {}

impl<O, P> TaggedBy for AlgorithmIdentifierOf<O, P> {
    type Marker = SequenceTag;
}

impl<P: EqualByValue> EqualByValue for AlgorithmIdentifier<P> {}

impl<'a, M: Memory, O: ReadIdentifier<'a>, P: Decode<&'a [u8], M>> DecodeValue<&'a [u8], M>
    for AlgorithmIdentifierOf<O, P> {
    #[inline(always)]
    fn read_value(memory: M, contents: &'a [u8]) -> Result<AlgorithmIdentifierOf<O, P>> {
        let (oid, Last(parameters)) = <(IdentifierView<'a>, Last<P>)>::read_parts(
            memory, contents,
        )?;
        Ok(O::algorithm_from_view(AlgorithmView { oid, parameters }))
    }
}

/// Reading an identifier without parameters never asks for memory, whatever type they would have. It does nothing: the
/// law is its contract.
pub fn lemma_identifier_alone_takes_no_memory<'a, P: Decode<&'a [u8], M>, M: Memory>() {}

impl<O: IdentifierValue, P: Encode> EncodeValue for AlgorithmIdentifierOf<O, P> {
    #[inline(always)]
    fn check_value(&self) -> Result<()> {
        let oid = self.oid.as_identifier_view();
        (oid, BorrowedLast(&self.parameters)).check_value()
    }

    #[inline(always)]
    fn prepend_value<W: Prepend>(&self, writer: &mut W) {
        let oid = self.oid.as_identifier_view();
        (oid, BorrowedLast(&self.parameters)).prepend_value(writer);
    }

    fn append_value<W: Writer>(&self, writer: &mut W) -> Result<()> {
        let oid = self.oid.as_identifier_view();
        (oid, BorrowedLast(&self.parameters)).append_value(writer)
    }
}

impl<P: TryClone> TryClone for AlgorithmIdentifier<P> {
    fn try_clone_in(&self, alloc: Global) -> Result<AlgorithmIdentifier<P>> {
        self.try_clone_in(alloc)
    }
}

impl<P: TryClone> AlgorithmIdentifier<P> {
    /// The same identifier with a copy of the parameters, or `OutOfMemory` where copying these may return it.
    pub(crate) fn try_clone_in(&self, alloc: Global) -> Result<AlgorithmIdentifier<P>> {
        let parameters = match &self.parameters {
            Some(parameters) => Some(parameters.try_clone_in(alloc)?),
            None => None,
        };
        Ok(AlgorithmIdentifier {
            oid: self.oid,
            parameters,
        })
    }
}

impl<P> AlgorithmIdentifier<P> {
    /// Returns the identifier. `OidUnknown` exactly if it isn't the expected one.
    pub fn assert_algorithm_oid(&self, expected: ObjectIdentifier) -> Result<ObjectIdentifier> {
        if self.oid == expected {
            Ok(self.oid)
        } else {
            Err(Error::new(ErrorKind::OidUnknown))
        }
    }
}

impl<'a, P> AlgorithmView<'a, P> {
    /// The same identifier, as a copy of its octets, and the same parameters.
    #[inline(always)]
    #[must_use]
    pub fn to_algorithm_identifier(self) -> AlgorithmIdentifier<P> {
        ObjectIdentifier::algorithm_from_view(self)
    }
}

/// What holds the object identifiers of algorithms that are read: `IdentifierView`, or `ObjectIdentifier` as a copy.
pub trait ReadIdentifier<'a>: IdentifierValue {
    /// The algorithm of a view: the same identifier, kept, and the same parameters.
    fn algorithm_from_view<P>(algorithm: AlgorithmView<'a, P>) -> AlgorithmIdentifierOf<Self, P>;
}

impl<'a> ReadIdentifier<'a> for IdentifierView<'a> {
    #[inline(always)]
    fn algorithm_from_view<P>(algorithm: AlgorithmView<'a, P>) -> AlgorithmView<'a, P> {
        algorithm
    }
}

impl<'a> ReadIdentifier<'a> for ObjectIdentifier {
    #[inline(always)]
    fn algorithm_from_view<P>(algorithm: AlgorithmView<'a, P>) -> AlgorithmIdentifier<P> {
        AlgorithmIdentifier {
            oid: algorithm.oid.to_object_identifier(),
            parameters: algorithm.parameters,
        }
    }
}

impl<O: IdentifierValue, P: AnyValue> AlgorithmIdentifierOf<O, P> {
    /// The algorithm identifier, borrowed.
    #[inline(always)]
    #[must_use]
    pub fn as_view(&self) -> AlgorithmView<'_, AnyRef<'_>> {
        AlgorithmView {
            oid: self.oid.as_identifier_view(),
            parameters: match &self.parameters {
                Some(parameters) => Some(parameters.as_any_ref()),
                None => None,
            },
        }
    }

    /// Whether this is the hash function D: its identifier, with NULL or without parameters. Both mean the same
    /// function (RFC 4055 2.1), though `==` tells them apart.
    #[must_use]
    pub fn is_hash<D: AssociatedOid>(&self) -> bool {
        self.oid.as_identifier_view().as_bytes() == D::octets()
            && self.parameters_or_null() == AnyRef::null()
    }

    /// Whether both are the same hash function: the identifiers are equal, and so are the parameters, where NULL and
    /// none are alike.
    #[must_use]
    pub fn is_same_hash<Q: IdentifierValue, R: AnyValue>(
        &self,
        other: &AlgorithmIdentifierOf<Q, R>,
    ) -> bool {
        self.oid.as_identifier_view().as_bytes() == other.oid.as_identifier_view().as_bytes()
            && self.parameters_or_null() == other.parameters_or_null()
    }

    /// The parameters, borrowed, or NULL if there are none.
    #[inline(always)]
    fn parameters_or_null(&self) -> AnyRef<'_> {
        match &self.parameters {
            Some(parameters) => parameters.as_any_ref(),
            None => AnyRef::null(),
        }
    }

    /// The parameters, borrowed. `ParametersMissing` exactly if there are none.
    pub fn parameters_any(&self) -> Result<AnyRef<'_>> {
        match &self.parameters {
            Some(parameters) => Ok(parameters.as_any_ref()),
            None => Err(Error::new(ErrorKind::ParametersMissing)),
        }
    }
}
