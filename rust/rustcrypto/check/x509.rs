//! A program with the crate x509-cert: the key of a certificate, and the parameters of its signature.
use pkcs1_of_0_7::{RsaPssParams, RsaPublicKey};
use x509_cert::der::{Decode, Encode};

#[test]
fn certificate() {
    let der = include_bytes!(concat!(env!("KEYS"), "/certificate.der"));
    let certificate = x509_cert::Certificate::from_der(der).unwrap();
    let key = certificate.tbs_certificate.subject_public_key_info.subject_public_key;
    assert!(RsaPublicKey::try_from(key.as_bytes().unwrap()).unwrap().modulus.as_bytes().len() >= 128);
    let params = certificate.signature_algorithm.parameters.unwrap();
    let params = params.decode_as::<RsaPssParams<'_>>().unwrap();
    assert_eq!(params, RsaPssParams::from_der(&params.to_der().unwrap()).unwrap());
}
