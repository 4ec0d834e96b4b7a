//! What programs do with types of `der`, `spki`, `pkcs8` and `sha2`, and with keys of their own types.
use pkcs1::der::asn1::{AnyRef, UintRef};
use pkcs1::der::{Decode, Document, Encode, ErrorKind, Sequence, Tag};
use pkcs1::{DecodeRsaPrivateKey, EncodeRsaPublicKey};
use pkcs1::{RsaOaepParamsRef, RsaPrivateKeyRef, RsaPssParamsRef, RsaPublicKeyRef};

const PRIVATE: &[u8] = include_bytes!(concat!(env!("KEYS"), "/priv2.der"));

/// A key of one's own type.
struct Key(Vec<u8>);
impl DecodeRsaPrivateKey for Key {
    fn from_pkcs1_der(bytes: &[u8]) -> pkcs1::Result<Key> {
        Ok(Key(RsaPrivateKeyRef::try_from(bytes)?.modulus.as_bytes().to_vec()))
    }
}
impl EncodeRsaPublicKey for Key {
    fn to_pkcs1_der(&self) -> pkcs1::Result<Document> {
        let (modulus, public_exponent) = (UintRef::new(&self.0)?, UintRef::new(&[1, 0, 1])?);
        Ok(Document::encode_msg(&RsaPublicKeyRef { modulus, public_exponent })?)
    }
}

/// A key, and parameters, within a SEQUENCE of one's own.
#[derive(Debug, PartialEq, Sequence)]
struct Known<'a> {
    since: u8,
    key: RsaPublicKeyRef<'a>,
    #[asn1(context_specific = "0", tag_mode = "IMPLICIT")]
    params: RsaPssParamsRef<'a>,
}

fn public(private: &[u8]) -> pkcs1::Result<RsaPublicKeyRef<'_>> {
    Ok(RsaPrivateKeyRef::try_from(private)?.public_key())
}

fn refused(private: &[u8]) -> pkcs8::Result<()> {
    RsaPrivateKeyRef::try_from(private)?;
    Err(pkcs1::Error::Version.into())
}

fn described(private: &[u8]) -> Result<usize, Box<dyn std::error::Error + Send + Sync>> {
    Ok(usize::try_from(public(private)?.modulus.len())?)
}

#[test]
fn keys() {
    let document = Key::from_pkcs1_der(PRIVATE).unwrap().to_pkcs1_der().unwrap();
    let key: RsaPublicKeyRef<'_> = document.decode_msg().unwrap();
    assert_eq!(key, public(PRIVATE).unwrap());
    assert_eq!((described(PRIVATE).unwrap(), described(&[]).is_err()), (256, true));
    assert!(matches!(refused(PRIVATE), Err(pkcs8::Error::KeyMalformed { .. })));
    let known = Known { since: 3, key, params: RsaPssParamsRef::new::<sha2::Sha384>(48) };
    let der = known.to_der().unwrap();
    assert_eq!(Known::from_der(&der).unwrap(), known);
    // The tag of the key's first number is another one.
    let error = Known::from_der(&[&der[..11], &[4], &der[12..]].concat()).unwrap_err();
    assert_eq!(error.kind(), ErrorKind::TagUnexpected { expected: Some(Tag::Integer), actual: Tag::OctetString });
}

#[test]
fn parameters() {
    let params = RsaPssParamsRef::new::<sha2::Sha384>(48);
    let der = params.to_der().unwrap();
    assert_eq!(AnyRef::from_der(&der).unwrap().decode_as::<RsaPssParamsRef<'_>>().unwrap(), params);
    assert_eq!(der[..19], [0x30, 52, 0xa0, 15, 0x30, 13, 6, 9, 0x60, 0x86, 0x48, 1, 0x65, 3, 4, 2, 2, 5, 0]);
    params.mask_gen.assert_algorithm_oid(const_oid::db::rfc5912::ID_MGF_1).unwrap();
    let label = RsaOaepParamsRef::new_with_label::<sha2::Sha512>(b"label");
    let mut der = Vec::new();
    label.encode_to_vec(&mut der).unwrap();
    assert_eq!(RsaOaepParamsRef::try_from(&der[..]).unwrap(), label);
}
