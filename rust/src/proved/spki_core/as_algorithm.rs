// Made of crates/spki_core/src/as_algorithm.rt by tools/erase/erase.py, and not to be edited.
//! Types that hold an algorithm identifier.

use crate::proved::spki_core::algorithm_identifier::AlgorithmIdentifier;
use crate::proved::spki_core::any::{AnyRef, AnyValue};

/// A type that holds an algorithm identifier with parameters of any tag.
pub trait AsAlgorithmIdentifierRef {
    /// The algorithm identifier, with borrowed parameters.
    fn as_algo_ref(&self) -> AlgorithmIdentifier<AnyRef<'_>>;
}

impl<P: AnyValue> AsAlgorithmIdentifierRef for AlgorithmIdentifier<P> {
    fn as_algo_ref(&self) -> AlgorithmIdentifier<AnyRef<'_>> {
        AlgorithmIdentifier {
            oid: self.oid,
            parameters: self.as_view().parameters,
        }
    }
}
