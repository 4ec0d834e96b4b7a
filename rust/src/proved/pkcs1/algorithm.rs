// Made of crates/pkcs1/src/algorithm.rt by tools/erase/erase.py, and not to be edited.
//! The algorithm identifier of RSA keys (RFC 8017 A.1).

use crate::proved::der_core::{Error, ErrorKind, NoMemory, Result, Tag};
use crate::proved::pkcs1_params::with_null;
use crate::proved::spki_core::{
    AlgorithmIdentifierOf, AlgorithmIdentifierRef, AnyRef, AnyValue, AssociatedOid,
    IdentifierValue, ObjectIdentifier,
};

/// The contents octets of the object identifier rsaEncryption, 1.2.840.113549.1.1.1.
pub const ALGORITHM_OID: &'static [u8] = &[0x2a, 0x86, 0x48, 0x86, 0xf7, 0x0d, 0x01, 0x01, 0x01];

/// rsaEncryption, as a type.
struct RsaEncryption;

impl AssociatedOid for RsaEncryption {
    const OID: &'static [u8] = ALGORITHM_OID;

    fn octets() -> &'static [u8] {
        Self::OID
    }
}

/// The object identifier rsaEncryption.
#[inline(always)]
pub fn rsa_encryption_oid() -> ObjectIdentifier {
    ObjectIdentifier::of::<RsaEncryption>()
}

/// The algorithm identifier of RSA keys in PKCS #8 containers: rsaEncryption with NULL parameters.
pub fn algorithm_id() -> AlgorithmIdentifierRef<'static> {
    with_null::<RsaEncryption, ObjectIdentifier, AnyRef<'static>, NoMemory>(NoMemory)
}

/// Whether these are the octets of rsaEncryption.
#[inline(always)]
fn is_rsa_encryption(octets: &[u8]) -> bool {
    match octets {
        [0x2a, 0x86, 0x48, 0x86, later @ ..] => matches!(later, [0xf7, 0x0d, 0x01, 0x01, 0x01]),
        _ => false,
    }
}

/// Accepts the algorithm identifier of RSA keys alone, as a reader of PKCS #8 or of SubjectPublicKeyInfo does. Ok
/// exactly if it is rsaEncryption with NULL. `OidUnknown` exactly of another identifier, else `ParametersMissing`
/// exactly if there are no parameters, else `Value` of their tag.
#[inline(always)]
pub fn require_rsa_encryption<O: IdentifierValue, P: AnyValue>(
    algorithm: &AlgorithmIdentifierOf<O, P>,
) -> Result<()> {
    let oid = algorithm.oid.as_identifier_view();
    if !is_rsa_encryption(oid.as_bytes()) {
        return Err(Error::new(ErrorKind::OidUnknown));
    }
    match &algorithm.parameters {
        Some(parameters) => {
            let any = parameters.as_any_ref();
            if any.is_alone(Tag::NULL) {
                Ok(())
            } else {
                Err(Error::new(ErrorKind::Value { tag: any.tag() }))
            }
        }
        None => Err(Error::new(ErrorKind::ParametersMissing)),
    }
}
