// Made of crates/pkcs1_params/src/pss_algorithm.rt by tools/erase/erase.py, and not to be edited.
//! The algorithm identifier id-RSASSA-PSS with its parameters (RFC 8017 A.2.3).

use crate::proved::pkcs1_params::algorithm::{FromAlgorithm, encode_identifier};
use crate::proved::pkcs1_params::error::{Result, fault_of};
use crate::proved::pkcs1_params::pss::{PssParamsOf, RsaPssParamsView};
use crate::proved::pkcs1_params::spelling::EncodeParams;
use crate::proved::der_core::{Borrowed, ErrorKind};
use crate::proved::spki_core::{
    AlgorithmView, AnyValue, AssociatedOid, IdentifierValue, IdentifierView, ObjectIdentifier,
};

/// id-RSASSA-PSS, as a type.
pub struct RsassaPss;

impl AssociatedOid for RsassaPss {
    const OID: &'static [u8] = &[0x2a, 0x86, 0x48, 0x86, 0xf7, 0x0d, 0x01, 0x01, 0x0a];

    fn octets() -> &'static [u8] {
        Self::OID
    }
}

/// The object identifier id-RSASSA-PSS (RFC 8017 A.2.3).
pub fn rsassa_pss_oid() -> ObjectIdentifier {
    ObjectIdentifier::of::<RsassaPss>()
}

impl<O: IdentifierValue, P: AnyValue> PssParamsOf<O, P> {
    /// The algorithm identifier id-RSASSA-PSS with these parameters, borrowed: to be written inside something larger.
    /// Such parameters may always be encoded.
    #[must_use]
    pub fn to_algorithm(&self) -> AlgorithmView<'_, Borrowed<'_, PssParamsOf<O, P>>> {
        self.lemma_is_valid();
        AlgorithmView {
            oid: IdentifierView::named::<RsassaPss>(),
            parameters: Some(Borrowed(self)),
        }
    }

    /// Writes the shortest encoding of the algorithm identifier id-RSASSA-PSS with these parameters to the front of a
    /// slice, and returns its length. The bytes behind it stay as they were. After an error all of the slice does. It
    /// is `Overflow` exactly if the encoding is longer than `Length::MAX`, else `NoRoom` exactly if it is longer than
    /// the slice, and never `Value`.
    pub fn encode_algorithm(&self, out: &mut [u8]) -> Result<usize> {
        encode_identifier::<RsassaPss, _>(self, out)
    }
}

/// The first fault of bytes that aren't the algorithm identifier id-RSASSA-PSS with parameters, of which they have
/// exactly one; `None` if they are.
pub fn fault_of_pss_algorithm(bytes: &[u8]) -> Option<ErrorKind> {
    fault_of(RsaPssParamsView::from_algorithm_der(bytes))
}
