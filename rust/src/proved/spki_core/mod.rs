// Made of crates/spki_core/src/lib.rt by tools/erase/erase.py, and not to be edited.
//! Algorithm identifiers, encodings of any tag, and explicit fields, over `der_core`.

mod algorithm_identifier;
mod any;
mod as_algorithm;
mod context_specific;
mod field;
mod identifier_view;
mod in_records;
mod object_identifier;
mod owned_any;
mod wide_tag;

pub use algorithm_identifier::{
    AlgorithmIdentifier, AlgorithmIdentifierOf, AlgorithmIdentifierRef, AlgorithmView,
    ReadIdentifier, lemma_identifier_alone_takes_no_memory,
};
pub use any::{AnyParams, AnyRef, AnyValue};
pub use as_algorithm::AsAlgorithmIdentifierRef;
pub use context_specific::{ContextSpecificRef, read_context_specific};
pub use field::{lemma_fields_are_read, note, read_field};
pub use identifier_view::{IdentifierValue, IdentifierView};
pub use object_identifier::{AssociatedOid, ObjectIdentifier, ObjectIdentifierTag};
pub use owned_any::Any;
