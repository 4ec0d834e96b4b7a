//! Keys, containers and parameters that OpenSSL made (ffi/tests/keys/make): read, compared with the numbers that
//! OpenSSL prints, and written as the same octets; and files that are refused.
#![cfg(feature = "alloc")]

mod made;

use made::kind;
use pkcs1_proved::der::{Decode, Encode, ErrorKind, Tag};
use pkcs1_proved::pkcs8::PrivateKeyInfoRef;
use pkcs1_proved::spki::AlgorithmIdentifier;
use pkcs1_proved::{
    RsaOaepParamsRef, RsaPrivateKeyOwned, RsaPrivateKeyRef, RsaPrivateKeyView, RsaPssParamsRef, RsaPublicKeyRef,
    Sha256, Sha512,
};

fn file(name: &str) -> Vec<u8> {
    std::fs::read(format!("{}/../ffi/tests/keys/{name}", env!("CARGO_MANIFEST_DIR"))).unwrap()
}

/// The numbers that OpenSSL printed, one in each line.
fn printed(name: &str) -> Vec<Vec<u8>> {
    let octet = |line: &str, at: usize| u8::from_str_radix(&line[at..at + 2], 16).unwrap();
    let text = String::from_utf8(file(name)).unwrap();
    text.lines().map(|line| (0..line.len()).step_by(2).map(|at| octet(line, at)).collect()).collect()
}

fn numbers(key: &RsaPrivateKeyRef<'_>) -> Vec<Vec<u8>> {
    let others = key.other_prime_infos.iter().flat_map(|others| others.iter());
    let others = others.flat_map(|other| [other.prime, other.exponent, other.coefficient]);
    let first = [key.modulus, key.public_exponent, key.private_exponent, key.prime1, key.prime2];
    let numbers = first.into_iter().chain([key.exponent1, key.exponent2, key.coefficient]).chain(others);
    numbers.map(|number| number.as_bytes().to_vec()).collect()
}

fn unexpected(octet: u8) -> ErrorKind {
    ErrorKind::TagUnexpected { expected: Tag::SEQUENCE, actual: Tag::from_octet(octet).unwrap() }
}

#[test]
fn keys_of_two_and_of_three_primes() {
    for (primes, others) in [(2, 0), (3, 1)] {
        let (der, public) = (file(&format!("priv{primes}.der")), file(&format!("pub{primes}.der")));
        let key = RsaPrivateKeyRef::try_from(&der[..]).unwrap();
        assert_eq!(numbers(&key), printed(&format!("priv{primes}.numbers"))[1..]); // the first one is the version
        assert_eq!(key.other_prime_infos.as_ref().map_or(0, |others| others.len()), others);
        assert_eq!((key.to_der().unwrap(), key.public_key().to_der().unwrap()), (der.clone(), public.clone()));
        let read = RsaPublicKeyRef::try_from(&public[..]).unwrap();
        let told = printed(&format!("pub{primes}.numbers"));
        assert_eq!([read.modulus.as_bytes(), read.public_exponent.as_bytes()], *told);
        assert_eq!((read.modulus.bit_len(), read), (2048, RsaPublicKeyRef::from(&key)));
    }
}

#[test]
fn containers() {
    for primes in [2, 3] {
        let (der, inner) = (file(&format!("p8_{primes}.der")), file(&format!("priv{primes}.der")));
        let info = PrivateKeyInfoRef::from_der(&der).unwrap();
        assert_eq!((info.algorithm, info.attributes), (pkcs1_proved::ALGORITHM_ID, None));
        assert_eq!((info.private_key.as_bytes(), info.to_der().unwrap()), (&inner[..], der.clone()));
        assert_eq!(RsaPrivateKeyRef::try_from(info).unwrap().to_der().unwrap(), inner);
        let key = RsaPrivateKeyOwned::from_pkcs8_der(&der).unwrap();
        assert_eq!((key.to_der().unwrap(), key.to_pkcs8_der().unwrap().as_bytes()), (inner, &der[..]));
        let with = PrivateKeyInfoRef { attributes: Some(&[1; 5000]), ..info }.to_der().unwrap();
        assert_eq!(PrivateKeyInfoRef::from_der(&with).unwrap().attributes, Some(&[1; 5000][..]));
        assert_eq!(numbers(&RsaPrivateKeyRef::from_pkcs8_der(&with).unwrap()).len(), 2 + 3 * primes);
    }
}

#[test]
fn parameters() {
    let pss = file("pss_sha256.der");
    assert_eq!(RsaPssParamsRef::from_der_strict(&pss), Ok(RsaPssParamsRef::new::<Sha256>(32)));
    assert_eq!(RsaPssParamsRef::new::<Sha256>(32).to_der().unwrap(), pss);
    // OpenSSL writes the hash function of OAEP without parameters.
    let oaep = file("oaep_sha512.der");
    let params = RsaOaepParamsRef::from_der_strict(&oaep).unwrap();
    let made = RsaOaepParamsRef::new_with_label::<Sha512>("label");
    assert_eq!((params.p_source, params.label()), (made.p_source, Some(&b"label"[..])));
    assert_eq!(params.hash, AlgorithmIdentifier { parameters: None, ..made.hash });
    assert!(params.uses_hash::<Sha512>() && params != made);
    assert_eq!(params.to_der().unwrap(), oaep);
}

#[test]
fn parts_of_a_key_and_a_changed_key() {
    let der = file("priv3.der");
    for end in 0..der.len() {
        assert_eq!(kind(RsaPrivateKeyRef::try_from(&der[..end])), ErrorKind::Incomplete);
    }
    let with = |at: usize, octet: u8| {
        let mut changed = der.clone();
        changed[at] = octet;
        kind(RsaPrivateKeyOwned::try_from(&changed[..]))
    };
    assert_eq!(with(6, 0), ErrorKind::Value { tag: Tag::INTEGER }); // that of two primes
    assert_eq!(with(6, 2), ErrorKind::Value { tag: Tag::INTEGER }); // a version that isn't there
    assert_eq!(with(0, 0x31), unexpected(0x31));
    assert_eq!(kind(RsaPrivateKeyView::try_from(&[&der[..], &[0]].concat()[..])), ErrorKind::TrailingData);
}

#[test]
fn what_is_no_such_key() {
    for (name, octet) in [("pub.pem", b'-'), ("spki.der", 0x30), ("encrypted.der", 0x30)] {
        let der = file(name);
        let kinds = [
            kind(RsaPublicKeyRef::try_from(&der[..])),
            kind(RsaPrivateKeyRef::try_from(&der[..])),
            kind(PrivateKeyInfoRef::try_from(&der[..])),
        ];
        assert!(kinds.iter().all(|kind| matches!(kind, ErrorKind::TagUnexpected { .. })), "{name}: {kinds:?}");
        assert_eq!(octet, der[0]);
    }
    assert_eq!(kind(RsaPrivateKeyRef::from_pkcs8_der(&file("ed25519.der"))), ErrorKind::OidUnknown);
    assert_eq!(kind(RsaPublicKeyRef::try_from(&file("priv2.der")[..])), ErrorKind::TrailingData);
    // The modulus of a public key stands where the version of a private one does.
    assert_eq!(kind(RsaPrivateKeyRef::try_from(&file("pub2.der")[..])), ErrorKind::Value { tag: Tag::INTEGER });
    assert!(matches!(kind(RsaPrivateKeyRef::try_from(&file("p8_2.der")[..])), ErrorKind::TagUnexpected { .. }));
}
