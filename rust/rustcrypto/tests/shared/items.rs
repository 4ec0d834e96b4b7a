use der::asn1::{ObjectIdentifier, UintRef};
use der::oid::AssociatedOid;
use der::{Decode as _, DecodePem, Document, Encode as _, EncodePem, SecretDocument};
use der::{ErrorKind, Reader, SliceReader, Tag};
use pkcs1::{DecodeRsaPrivateKey, DecodeRsaPublicKey, EncodeRsaPrivateKey, EncodeRsaPublicKey};
use pkcs1::{Error, LineEnding, OtherPrimeInfo, Result, TrailerField, Version};
use pkcs1::{RsaOaepParamsOwned, RsaPrivateKeyOwned, RsaPssParamsOwned, RsaPublicKeyOwned};
use pkcs1::{RsaOaepParamsRef, RsaPrivateKeyRef, RsaPssParamsRef, RsaPublicKeyRef};
use proved::der::{Decode as _, Encode as _};
use spki::SubjectPublicKeyInfoRef;

const PUBLIC: &[u8] = include_bytes!("../../../../ffi/tests/keys/pub2.der");
const PRIVATE: &[u8] = include_bytes!("../../../../ffi/tests/keys/priv2.der");
const PRIVATE_3: &[u8] = include_bytes!("../../../../ffi/tests/keys/priv3.der");
/// A public key, and a private key of three primes.
const SMALL: [u8; 8] = [0x30, 6, 2, 1, 7, 2, 1, 3];
const SMALL_3: [u8; 42] = [
    0x30, 40, 2, 1, 1, 2, 1, 7, 2, 1, 3, 2, 1, 5, 2, 1, 11, 2, 1, 13, 2, 1, 2, 2, 1, 4, 2, 1, 6, 0x30, 11, 0x30, 9, 2,
    1, 17, 2, 1, 2, 2, 1, 3,
];
/// SHA-256 without parameters with a salt of 32 octets, and the label `a`.
const PSS: [u8; 22] = [0x30, 20, 0xa0, 13, 0x30, 11, 6, 9, 0x60, 0x86, 0x48, 1, 0x65, 3, 4, 2, 1, 0xa2, 3, 2, 1, 32];
const LABEL: [u8; 20] = [0x30, 18, 0xa2, 16, 0x30, 14, 6, 9, 0x2a, 0x86, 0x48, 0x86, 0xf7, 0x0d, 1, 1, 9, 4, 1, b'a'];

struct Sha256;
impl AssociatedOid for Sha256 {
    const OID: ObjectIdentifier = ObjectIdentifier::new_unwrap("2.16.840.1.101.3.4.2.1");
}

/// With each octet changed in each way, cut off at each, and with one more.
fn damaged(whole: &[u8]) -> Vec<Vec<u8>> {
    let changed = |at: usize| (0..=255).map(move |octet| [&whole[..at], &[octet], &whole[at + 1..]].concat());
    let cut = (0..whole.len()).map(|at| whole[..at].to_vec());
    (0..whole.len()).flat_map(changed).chain(cut).chain([[whole, &[0]].concat()]).collect()
}

/// By each way to read, a type has the value that the proved function reads. The types of `der` don't hold all
/// identifiers and tags, so of parameters some are refused with the same error by each.
#[test]
fn as_proved() {
    macro_rules! rows {
        ($($name:ident $owned:ident, $encodings:expr, $holds_all:literal;)*) => { $(for der in $encodings {
            let read = $name::from_der(&der).map(|value| value.to_der().unwrap());
            let tried = $name::try_from(&der[..]).map(|value| value.to_der().unwrap());
            assert_eq!(tried, read.map_err(Error::Asn1), "{der:x?}");
            let owned = $owned::from_der(&der).map(|value| value.to_der().unwrap()).ok();
            assert_eq!(owned, tried.ok(), "{der:x?}");
            let proved = proved::$name::from_der(&der).map(|value| value.to_der().unwrap()).ok();
            assert!(owned == proved || owned.is_none() && !$holds_all, "{der:x?}");
        })* };
    }
    rows! {
        RsaPublicKeyRef RsaPublicKeyOwned, [PUBLIC], true;
        RsaPublicKeyRef RsaPublicKeyOwned, damaged(&SMALL), true;
        RsaPrivateKeyRef RsaPrivateKeyOwned, [PRIVATE, PRIVATE_3], true;
        RsaPrivateKeyRef RsaPrivateKeyOwned, damaged(&SMALL_3), true;
        RsaPssParamsRef RsaPssParamsOwned, damaged(&PSS), false;
        RsaOaepParamsRef RsaOaepParamsOwned, damaged(&LABEL), false;
    }
}

#[test]
fn keys() {
    for der in [PUBLIC, &SMALL] {
        let key = RsaPublicKeyRef::try_from(der).unwrap();
        assert_eq!(Document::try_from(key).unwrap().as_bytes(), der);
        let owned = RsaPublicKeyOwned::from_pkcs1_der(der).unwrap();
        assert_eq!(owned.to_pkcs1_der().unwrap().as_bytes(), der);
        let text = owned.to_pem(LineEnding::LF).unwrap();
        assert_eq!(RsaPublicKeyOwned::from_pem(text).unwrap(), owned);
        // One behind another.
        let two = [der, der].concat();
        let mut reader = SliceReader::new(&two).unwrap();
        assert_eq!(RsaPublicKeyOwned::decode(&mut reader).unwrap(), owned);
        assert_eq!(RsaPublicKeyRef::decode(&mut reader).unwrap(), key);
        assert!(reader.is_finished());
    }
    for (der, multi) in [(PRIVATE, false), (PRIVATE_3, true), (&SMALL_3, true)] {
        let (key, owned) = (RsaPrivateKeyRef::try_from(der).unwrap(), RsaPrivateKeyOwned::from_pkcs1_der(der).unwrap());
        assert_eq!((key.version().is_multi(), owned.version()), (multi, key.version()));
        assert_eq!(SecretDocument::try_from(&key).unwrap().as_bytes(), der);
        assert_eq!(owned.to_pkcs1_der().unwrap().as_bytes(), der);
        assert_eq!((owned.public_key(), RsaPublicKeyRef::from(&key)), (key.public_key(), RsaPublicKeyRef::from(key)));
    }
    let [prime, exponent, coefficient] = [&[17], &[2], &[3]].map(|octets| UintRef::new(octets).unwrap());
    let other = OtherPrimeInfo { prime, exponent, coefficient };
    assert_eq!(other.to_der().unwrap(), SMALL_3[31..]);
    let mut again = other;
    again.clone_from(&OtherPrimeInfo::from_der(&SMALL_3[31..]).unwrap());
    assert_eq!(again.to_der().unwrap(), SMALL_3[31..]);
}

/// Numbers and labels are parts of the input, however it is read.
#[test]
fn borrowed() {
    let within = |part: &[u8], whole: &[u8]| assert!(whole.as_ptr_range().contains(&part.as_ptr()));
    for key in [RsaPrivateKeyRef::try_from(PRIVATE_3).unwrap(), RsaPrivateKeyRef::from_der(PRIVATE_3).unwrap()] {
        within(key.modulus.as_bytes(), PRIVATE_3);
        within(key.other_prime_infos.unwrap()[0].coefficient.as_bytes(), PRIVATE_3);
    }
    for params in [RsaOaepParamsRef::try_from(&LABEL[..]).unwrap(), RsaOaepParamsRef::from_der(&LABEL).unwrap()] {
        within(params.p_source.parameters.unwrap().value(), &LABEL);
    }
}

#[test]
fn parameters() {
    let params = RsaPssParamsRef::new::<Sha256>(32);
    let der = params.to_der().unwrap();
    assert_eq!((der.len(), params.hash.oid), (54, Sha256::OID));
    assert_eq!(RsaPssParamsRef::from_der(&der).unwrap(), params);
    assert_eq!(RsaPssParamsRef::default().to_der().unwrap(), [0x30, 0]);
    assert_eq!(RsaPssParamsRef::try_from(&[0x30, 0][..]).unwrap(), RsaPssParamsRef::default());
    assert_eq!(RsaPssParamsOwned::default(), RsaPssParamsOwned::from_der(&[0x30, 0]).unwrap());
    assert_eq!(RsaOaepParamsOwned::default(), RsaOaepParamsOwned::from_der(&[0x30, 0]).unwrap());
    assert_eq!(RsaPssParamsRef::SALT_LEN_DEFAULT, RsaPssParamsRef::default().salt_len);
    assert_eq!(RsaPssParamsRef::try_from(&PSS[..]).unwrap().hash.parameters, None);
    assert_eq!(RsaOaepParamsRef::default().to_der().unwrap(), [0x30, 0]);
    let p_source = RsaOaepParamsRef::new_with_label::<Sha256>(b"a").p_source;
    assert_eq!(RsaOaepParamsRef { p_source, ..RsaOaepParamsRef::default() }.to_der().unwrap(), LABEL);
    assert_eq!(RsaOaepParamsRef::new::<Sha256>(), RsaOaepParamsRef::new_with_label::<Sha256>(b""));
    assert_eq!(Version::from_der(&[2, 1, 1]).unwrap().to_der().unwrap(), [2, 1, 1]);
    assert_eq!((Version::try_from(2), u8::from(Version::Multi)), (Err(Error::Version), 1));
    assert_eq!(TrailerField::from_der(&[2, 1, 1]).unwrap().to_der().unwrap(), [2, 1, 1]);
}

#[test]
fn refused() {
    let [sequence, integer] = [Tag::Sequence, Tag::Integer].map(|tag| ErrorKind::Value { tag });
    let mut empty = SMALL_3[..31].to_vec();
    (empty[1], empty[30]) = (29, 0);
    let mut malformed = LABEL;
    malformed[9] = 0x80;
    let other = ErrorKind::TagUnexpected { expected: Some(Tag::Integer), actual: Tag::OctetString };
    let early = [0x30, 0x84, 0x0f, 0xff, 0xff, 0xff, 2];
    for (error, kind) in [
        (RsaPublicKeyRef::from_der(&[0x30, 6, 2, 1, 7, 4, 1, 3]).unwrap_err(), other),
        (RsaPublicKeyOwned::from_der(&early).unwrap_err(), RsaPublicKeyRef::from_der(&early).unwrap_err().kind()),
        (RsaPrivateKeyRef::from_der(&empty).unwrap_err(), sequence),
        (RsaOaepParamsRef::from_der(&malformed).unwrap_err(), sequence),
        (Version::from_der(&[2, 1, 2]).unwrap_err(), integer),
        (Version::from_der(&[2, 3, 1, 1, 1]).unwrap_err(), ErrorKind::Noncanonical { tag: Tag::Integer }),
        (TrailerField::from_der(&[2, 1, 2]).unwrap_err(), integer),
    ] {
        assert_eq!(error.kind(), kind);
        assert_eq!(Error::from(error).to_string(), format!("PKCS#1 ASN.1 error: {error}"));
    }
    assert!(RsaPssParamsRef::from_der(&[0x30, 10, 0xa3, 3, 2, 1, 1, 0xa2, 3, 2, 1, 32]).is_err());
    let late = RsaPublicKeyRef::from_der(&[0x30, 6, 2, 1, 7, 2, 2, 3]).unwrap_err();
    assert!(matches!(late.kind(), ErrorKind::Incomplete { .. }) && late.position().is_some());
    let full = RsaPublicKeyRef::from_der(&SMALL).unwrap().encode_to_slice(&mut [0; 5]).unwrap_err();
    assert_eq!(full, ErrorKind::Overlength.at(8u8.into()));
    let key = RsaPrivateKeyRef { other_prime_infos: Some(Vec::new()), ..RsaPrivateKeyRef::from_der(PRIVATE).unwrap() };
    assert_eq!(key.to_der().unwrap_err().kind(), sequence);
}

#[test]
fn files() {
    let path = std::env::temp_dir().join(format!("pkcs1-{}-{}", std::process::id(), env!("CARGO_PKG_VERSION")));
    let read = |key: Result<RsaPrivateKeyOwned>| assert_eq!(key.unwrap().to_der().unwrap(), PRIVATE_3);
    let key = RsaPrivateKeyRef::try_from(PRIVATE_3).unwrap();
    key.write_pkcs1_der_file(&path).unwrap();
    read(DecodeRsaPrivateKey::read_pkcs1_der_file(&path));
    key.write_pkcs1_pem_file(&path, LineEnding::LF).unwrap();
    read(DecodeRsaPrivateKey::read_pkcs1_pem_file(&path));
    std::fs::remove_file(path).unwrap();
    let text = key.to_pkcs1_pem(LineEnding::LF).unwrap();
    read(DecodeRsaPrivateKey::from_pkcs1_pem(&text));
    assert!(RsaPrivateKeyOwned::from_pkcs1_pem(&text.replace("RSA PRIVATE", "RSA PUBLIC")).is_err());
}

/// What a type of others is written as in a container.
struct Contained(Vec<u8>);
impl TryFrom<PrivateKeyInfo<'_>> for Contained {
    type Error = pkcs8::Error;
    fn try_from(info: PrivateKeyInfo<'_>) -> pkcs8::Result<Contained> {
        Ok(Contained(info.to_der()?))
    }
}
impl TryFrom<SubjectPublicKeyInfoRef<'_>> for Contained {
    type Error = spki::Error;
    fn try_from(info: SubjectPublicKeyInfoRef<'_>) -> spki::Result<Contained> {
        Ok(Contained(info.to_der()?))
    }
}
impl pkcs8::EncodePrivateKey for Contained {
    fn to_pkcs8_der(&self) -> pkcs8::Result<SecretDocument> {
        Ok(SecretDocument::try_from(&self.0[..])?)
    }
}
impl pkcs8::EncodePublicKey for Contained {
    fn to_public_key_der(&self) -> spki::Result<Document> {
        Ok(Document::try_from(&self.0[..])?)
    }
}

/// Keys are put into containers for rsaEncryption with NULL, and taken out of them. Of others they aren't.
#[test]
fn containers() {
    let of = |tag: u8, parts: &[&[u8]]| [&[tag, parts.concat().len() as u8][..], &parts.concat()].concat();
    let private = |algorithm: &[u8], key: &[u8]| of(0x30, &[&[2, 1, 0], algorithm, &of(4, &[key])]);
    let public = |algorithm: &[u8], key: &[u8]| of(0x30, &[algorithm, &of(3, &[&[0], key])]);
    for (last, parameters, keys, said) in [
        (1, &[5, 0][..], [&SMALL_3[..], &SMALL], ""),
        (1, &[5, 0], [&PSS, &PSS], "TagUnexpected"),
        (1, &[4, 0], [&SMALL_3, &SMALL], "TagUnexpected"),
        (1, &[], [&SMALL_3, &SMALL], "AlgorithmParametersMissing"),
        (10, &[5, 0], [&SMALL_3, &SMALL], "OidUnknown"),
    ] {
        let algorithm = of(0x30, &[&[6, 9, 0x2a, 0x86, 0x48, 0x86, 0xf7, 0x0d, 1, 1, last], parameters]);
        let (private, public) = (private(&algorithm, keys[0]), public(&algorithm, keys[1]));
        let held = EncodeRsaPrivateKey::to_pkcs1_der(&Contained(private.clone()));
        let shown = EncodeRsaPublicKey::to_pkcs1_der(&Contained(public.clone()));
        if said.is_empty() {
            assert_eq!((held.unwrap().as_bytes(), shown.unwrap().as_bytes()), (keys[0], keys[1]));
            assert_eq!(<Contained as DecodeRsaPrivateKey>::from_pkcs1_der(keys[0]).unwrap().0, private);
            assert_eq!(<Contained as DecodeRsaPublicKey>::from_pkcs1_der(keys[1]).unwrap().0, public);
        } else {
            let errors = [held.unwrap_err(), shown.unwrap_err()];
            assert!(errors.iter().all(|error| format!("{error:?}").contains(said)), "{errors:?}");
        }
    }
}
