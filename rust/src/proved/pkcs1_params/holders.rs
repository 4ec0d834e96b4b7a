// Made of crates/pkcs1_params/src/holders.rt by tools/erase/erase.py, and not to be edited.
//! The algorithms in parameters, whatever holds their identifiers and parameters: how they are written.

use crate::proved::pkcs1_params::hash_fields::{is_mgf1, is_sha1};
use crate::proved::pkcs1_params::label::is_p_specified;
use crate::proved::der_core::{Encode, Tag};
use crate::proved::spki_core::{AlgorithmIdentifierOf, AnyValue, IdentifierValue};

/// A hash function or a label source.
pub trait PlainHolder: Encode {
    /// Whether it is the default hash function, SHA-1 with NULL.
    fn is_default_hash(&self) -> bool;

    /// Whether it is the default source, pSpecified with the empty label.
    fn is_default_source(&self) -> bool;
}

impl<O: IdentifierValue, P: AnyValue> PlainHolder for AlgorithmIdentifierOf<O, P> {
    fn is_default_hash(&self) -> bool {
        match &self.parameters {
            Some(parameters) => {
                let oid = self.oid.as_identifier_view();
                is_sha1(oid.as_bytes()) && parameters.as_any_ref().is_alone(Tag::NULL)
            }
            None => false,
        }
    }

    fn is_default_source(&self) -> bool {
        match &self.parameters {
            Some(label) => {
                let oid = self.oid.as_identifier_view();
                is_p_specified(oid.as_bytes()) && label.as_any_ref().is_alone(Tag::OCTET_STRING)
            }
            None => false,
        }
    }
}

/// A mask generation function.
pub trait MaskHolder: Encode {
    /// Whether it is the default, MGF1 with SHA-1 with NULL.
    fn is_default(&self) -> bool;
}

impl<O: IdentifierValue, P: AnyValue> MaskHolder
    for AlgorithmIdentifierOf<O, AlgorithmIdentifierOf<O, P>> {
    fn is_default(&self) -> bool {
        match &self.parameters {
            Some(hash) => {
                let oid = self.oid.as_identifier_view();
                is_mgf1(oid.as_bytes()) && hash.is_default_hash()
            }
            None => false,
        }
    }
}
