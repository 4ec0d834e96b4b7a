// Made of crates/spki_core/src/in_records.rt by tools/erase/erase.py, and not to be edited.
//! Identifiers and encodings of any tag as parts of records: what writing their only encoding asks of them.

use crate::proved::spki_core::algorithm_identifier::{AlgorithmIdentifierOf, ReadIdentifier};
use crate::proved::spki_core::any::AnyRef;
use crate::proved::spki_core::identifier_view::{IdentifierValue, IdentifierView};
use crate::proved::spki_core::object_identifier::ObjectIdentifier;
use crate::proved::der_core::{OneContents, OneEncoding};

impl OneContents for ObjectIdentifier {}

impl OneContents for IdentifierView<'_> {}

impl OneEncoding for AnyRef<'_> {}

impl<O: IdentifierValue, P: OneEncoding> OneContents for AlgorithmIdentifierOf<O, P> {}
