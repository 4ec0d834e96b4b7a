//! What the crate promises, by the names of 0.8.
use pkcs8::PrivateKeyInfoRef as PrivateKeyInfo;

include!("shared/items.rs");

/// A private key in an OCTET STRING, as in PKCS #8.
#[test]
fn octet_string() {
    let octets = der::asn1::OctetStringRef::new(PRIVATE_3).unwrap();
    assert_eq!(RsaPrivateKeyRef::try_from(octets).unwrap().to_der().unwrap(), PRIVATE_3);
    assert_eq!(RsaPrivateKeyOwned::try_from(octets).unwrap().to_der().unwrap(), PRIVATE_3);
}
