//! RustCrypto's pkcs1, der, spki and pkcs8. Identifiers of algorithms, and rsaEncryption's NULL, are compared here.
use super::*;
use pkcs1::der::asn1::{AnyRef, ObjectIdentifier};
use pkcs1::der::{Decode, Encode};
use pkcs1::{RsaOaepParams, RsaPrivateKey, RsaPssParams, RsaPublicKey, ALGORITHM_ID};
use pkcs8::{AlgorithmIdentifierRef, PrivateKeyInfo};

const PSS: ObjectIdentifier = ObjectIdentifier::new_unwrap("1.2.840.113549.1.1.10");
const OAEP: ObjectIdentifier = ObjectIdentifier::new_unwrap("1.2.840.113549.1.1.7");

fn put<T: Encode>(value: &T, to: &mut [u8]) -> Option<usize> {
    value.encode_to_slice(to).ok().map(|it| it.len())
}
fn parameters(der: &[u8], oid: ObjectIdentifier) -> Option<AnyRef<'_>> {
    let whole = AlgorithmIdentifierRef::from_der(der).ok()?;
    whole.parameters.filter(|_| whole.oid == oid)
}
fn put_algorithm<T: Encode>(oid: ObjectIdentifier, value: &T, to: &mut [u8]) -> Option<usize> {
    let mut room = [0; 4096];
    let parameters = AnyRef::from_der(value.encode_to_slice(&mut room).ok()?).ok()?;
    put(&AlgorithmIdentifierRef { oid, parameters: Some(parameters) }, to)
}
fn read_container(der: &[u8]) -> Option<(PrivateKeyInfo<'_>, RsaPrivateKey<'_>)> {
    let info = PrivateKeyInfo::try_from(der).ok().filter(|it| it.algorithm == ALGORITHM_ID)?;
    Some((info.clone(), RsaPrivateKey::try_from(info.private_key).ok()?))
}

macro_rules! whole {
    ($name:ident, $value:ident) => {
        reads_and_writes!($name, $value<'a>, |b| $value::try_from(b).ok(), put);
    };
}
macro_rules! in_algorithm {
    ($name:ident, $value:ident, $oid:ident) => {
        reads_and_writes!($name, $value<'a>, |b| parameters(b, $oid)?.decode_as().ok(), |it: &_, to| put_algorithm(
            $oid, it, to
        ));
    };
}
whole!(PublicKey, RsaPublicKey);
whole!(PrivateKey, RsaPrivateKey);
whole!(Pss, RsaPssParams);
whole!(Oaep, RsaOaepParams);
in_algorithm!(PssAlgorithm, RsaPssParams, PSS);
in_algorithm!(OaepAlgorithm, RsaOaepParams, OAEP);
reads_and_writes!(
    Container,
    (PrivateKeyInfo<'a>, RsaPrivateKey<'a>),
    read_container,
    |it: &(PrivateKeyInfo<'_>, _), to| put(&it.0, to)
);

library!(
    rustcrypto,
    c"RustCrypto",
    1,
    [PublicKey, PrivateKey, PrivateKey, Pss, PssAlgorithm, Oaep, OaepAlgorithm, Container]
);
