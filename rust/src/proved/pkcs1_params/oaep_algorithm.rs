// Made of crates/pkcs1_params/src/oaep_algorithm.rt by tools/erase/erase.py, and not to be edited.
//! The algorithm identifier id-RSAES-OAEP with its parameters (RFC 8017 A.2.1).

use crate::proved::pkcs1_params::algorithm::{FromAlgorithm, encode_identifier};
use crate::proved::pkcs1_params::error::{Result, fault_of};
use crate::proved::pkcs1_params::oaep::{OaepParamsOf, RsaOaepParamsView};
use crate::proved::pkcs1_params::spelling::EncodeParams;
use crate::proved::der_core::{Borrowed, ErrorKind};
use crate::proved::spki_core::{
    AlgorithmView, AnyValue, AssociatedOid, IdentifierValue, IdentifierView, ObjectIdentifier,
};

/// id-RSAES-OAEP, as a type.
pub struct RsaesOaep;

impl AssociatedOid for RsaesOaep {
    const OID: &'static [u8] = &[0x2a, 0x86, 0x48, 0x86, 0xf7, 0x0d, 0x01, 0x01, 0x07];

    fn octets() -> &'static [u8] {
        Self::OID
    }
}

/// The object identifier id-RSAES-OAEP (RFC 8017 A.2.1).
pub fn rsaes_oaep_oid() -> ObjectIdentifier {
    ObjectIdentifier::of::<RsaesOaep>()
}

impl<O: IdentifierValue, P: AnyValue> OaepParamsOf<O, P> {
    /// The algorithm identifier id-RSAES-OAEP with these parameters, borrowed: to be written inside something larger.
    /// Such parameters may always be encoded.
    #[must_use]
    pub fn to_algorithm(&self) -> AlgorithmView<'_, Borrowed<'_, OaepParamsOf<O, P>>> {
        self.lemma_is_valid();
        AlgorithmView {
            oid: IdentifierView::named::<RsaesOaep>(),
            parameters: Some(Borrowed(self)),
        }
    }

    /// Writes the shortest encoding of the algorithm identifier id-RSAES-OAEP with these parameters to the front of a
    /// slice, and returns its length. The bytes behind it stay as they were. After an error all of the slice does. It
    /// is `Overflow` exactly if the encoding is longer than `Length::MAX`, else `NoRoom` exactly if it is longer than
    /// the slice, and never `Value`.
    pub fn encode_algorithm(&self, out: &mut [u8]) -> Result<usize> {
        encode_identifier::<RsaesOaep, _>(self, out)
    }
}

/// The first fault of bytes that aren't the algorithm identifier id-RSAES-OAEP with parameters, of which they have
/// exactly one; `None` if they are.
pub fn fault_of_oaep_algorithm(bytes: &[u8]) -> Option<ErrorKind> {
    fault_of(RsaOaepParamsView::from_algorithm_der(bytes))
}
