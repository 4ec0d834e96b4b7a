//! Programs for RustCrypto's `pkcs1` 0.8, one of each shape: what they name is named here alike.
#![cfg(feature = "std")]

mod made;

use pkcs1_proved::der::asn1::{Any, AnyRef, ObjectIdentifier, OctetStringRef, Uint, UintRef};
use pkcs1_proved::der::{Decode, Document, Encode, ErrorKind, Length, SecretDocument, Tag};
use pkcs1_proved::spki::{AlgorithmIdentifier, AlgorithmIdentifierRef};
use pkcs1_proved::{
    ALGORITHM_ID, DecodeRsaPrivateKey, DecodeRsaPublicKey, EncodeRsaPrivateKey, EncodeRsaPublicKey, OtherPrimeInfo,
    RsaOaepParams, RsaPrivateKey, RsaPrivateKeyOwned, RsaPrivateKeyRef, RsaPssParams, RsaPublicKey, RsaPublicKeyOwned,
    RsaPublicKeyRef, TrailerField, Version,
};
use std::collections::HashSet;
use std::error::Error;

type Tested = Result<(), Box<dyn Error + Send + Sync>>;

/// Keys of a program's own type.
#[derive(Debug, PartialEq)]
struct Verifier {
    modulus: Vec<u8>,
    exponent: Vec<u8>,
}

struct Signer(RsaPrivateKeyOwned);

impl DecodeRsaPublicKey for Verifier {
    fn from_pkcs1_der(bytes: &[u8]) -> pkcs1_proved::Result<Verifier> {
        let key = RsaPublicKeyRef::try_from(bytes)?;
        let [modulus, exponent] = [key.modulus, key.public_exponent].map(|number| number.as_bytes().to_vec());
        if modulus.len() < 64 { Err(pkcs1_proved::Error::KeyMalformed) } else { Ok(Verifier { modulus, exponent }) }
    }
}

impl EncodeRsaPublicKey for Verifier {
    fn to_pkcs1_der(&self) -> pkcs1_proved::Result<Document> {
        let key =
            RsaPublicKey { modulus: UintRef::new(&self.modulus)?, public_exponent: UintRef::new(&self.exponent)? };
        key.to_pkcs1_der()
    }
}

impl DecodeRsaPrivateKey for Signer {
    fn from_pkcs1_der(bytes: &[u8]) -> pkcs1_proved::Result<Signer> {
        RsaPrivateKeyOwned::from_pkcs1_der(bytes).map(Signer)
    }
}

impl EncodeRsaPrivateKey for Signer {
    fn to_pkcs1_der(&self) -> pkcs1_proved::Result<SecretDocument> {
        Ok(SecretDocument::try_from(self.0.to_der()?)?)
    }
}

#[test]
fn keys_of_ones_own_types() -> Tested {
    let folder = std::env::temp_dir();
    let path = folder.join(format!("verifier-{}.der", std::process::id()));
    let key = Verifier::from_pkcs1_der(&made::public_key())?;
    key.write_pkcs1_der_file(&path)?;
    assert_eq!(std::fs::read(&path)?, made::public_key());
    assert_eq!(Verifier::read_pkcs1_der_file(&path)?, key);
    let signer = Signer::from_pkcs1_der(&made::private_key(1))?;
    signer.write_pkcs1_der_file(&path)?;
    assert_eq!(Signer::read_pkcs1_der_file(&path)?.to_pkcs1_der()?.as_bytes(), made::private_key(1));
    std::fs::remove_file(&path)?;
    let small = RsaPublicKey { modulus: UintRef::new(&[7])?, public_exponent: UintRef::new(&[3])? }.to_der()?;
    assert_eq!(Verifier::from_pkcs1_der(&small), Err(pkcs1_proved::Error::KeyMalformed));
    Ok(())
}

/// A message of a program's own type: a number under a tag of its own.
struct Counter(u8);

impl<'a> Decode<'a> for Counter {
    fn from_der(bytes: &'a [u8]) -> pkcs1_proved::der::Result<Counter> {
        match UintRef::try_from(AnyRef::from_der(bytes)?)?.as_bytes() {
            [octet] => Ok(Counter(*octet)),
            _ => Err(pkcs1_proved::der::ErrorKind::Value { tag: Tag::INTEGER }.into()),
        }
    }
}

impl Encode for Counter {
    fn encoded_len(&self) -> pkcs1_proved::der::Result<Length> {
        UintRef::new(&[self.0])?.encoded_len()
    }

    fn encode_to_slice<'o>(&self, out: &'o mut [u8]) -> pkcs1_proved::der::Result<&'o [u8]> {
        UintRef::new(&[self.0])?.encode_to_slice(out)
    }
}

#[test]
fn parts_are_read_one_by_one() -> Tested {
    let der = [&[2, 2, 0, 200][..], &[5, 0], &[4, 1]].concat();
    let (counter, rest) = Counter::from_der_partial(&der)?;
    let (null, rest) = AnyRef::from_der_partial(rest)?;
    assert_eq!((counter.0, null, rest), (200, AnyRef::NULL, &[4, 1][..]));
    assert_eq!(OctetStringRef::from_der_partial(rest).unwrap_err().kind(), ErrorKind::Incomplete);
    assert_eq!(Counter::from_der_partial(&[]).map(|_| ()).unwrap_err().kind(), ErrorKind::Incomplete);
    assert!(UintRef::from_der_partial(&der[4..]).is_err());
    Ok(())
}

#[test]
fn a_message_of_ones_own_type() -> Tested {
    assert_eq!(Counter(200).to_der()?, [2, 2, 0, 200]);
    assert_eq!(Counter::from_der(&[2, 2, 0, 200])?.0, 200);
    assert!(Document::encode_msg(&Counter(1)).is_err());
    Ok(())
}

#[test]
fn a_key_of_numbers() -> Tested {
    let der = made::private_key(0);
    let key = RsaPrivateKeyRef::from_der(&der)?;
    let other = OtherPrimeInfo { prime: key.prime1, exponent: key.exponent1, coefficient: key.coefficient };
    let long = RsaPrivateKey { other_prime_infos: Some(vec![other; 9].into()), ..key.clone() };
    assert_eq!((key.version(), long.version().is_multi()), (Version::TwoPrime, true));
    assert_eq!(RsaPrivateKeyRef::from_der(&long.to_der()?)?.other_prime_infos.map(|it| it.len()), Some(9));
    let none = RsaPrivateKey { other_prime_infos: Some(vec![].into()), ..key.clone() };
    assert!(none.to_der().is_err() && none.encoded_len().is_err());
    let owned = RsaPublicKeyOwned { modulus: Uint::new(&[0, 9])?, public_exponent: Uint::new(&[3])? };
    assert_eq!(owned.to_der()?, [0x30, 6, 2, 1, 9, 2, 1, 3]);
    assert_eq!(RsaPublicKeyRef::from(&owned).modulus.as_bytes(), [9]);
    assert_eq!(RsaPrivateKeyRef::try_from(OctetStringRef::new(&der)?)?.to_der()?, der);
    Ok(())
}

#[test]
fn parameters_in_an_algorithm_identifier() -> Tested {
    let params = RsaPssParams::new::<pkcs1_proved::Sha256>(32);
    let inner = params.to_der()?;
    let algorithm = AlgorithmIdentifier {
        oid: ObjectIdentifier::new("1.2.840.113549.1.1.10")?,
        parameters: Some(AnyRef::from_der(&inner)?),
    };
    let der = algorithm.to_der()?;
    assert_eq!(der, params.to_algorithm_der()?);
    let read = AlgorithmIdentifierRef::from_der(&der)?;
    read.assert_algorithm_oid(ObjectIdentifier::new("1.2.840.113549.1.1.10")?)?;
    assert!(read.assert_algorithm_oid(ALGORITHM_ID.oid).is_err());
    let parameters: RsaPssParams<_> = read.parameters_any()?.try_into()?;
    assert_eq!((parameters, parameters.trailer_field), (params, TrailerField::default()));
    let owned = AlgorithmIdentifier::<Any>::from_der(&der)?;
    assert_eq!(owned.try_clone()?.to_der()?, der);
    let spelled = params.encode_spelling(1, &mut [0; 99])?.to_vec();
    assert_eq!((params.default_fields(), params.spellings()?), (1, vec![inner, spelled]));
    Ok(())
}

#[test]
fn idioms() -> Tested {
    fn moved<T: Send + Sync + Clone + std::fmt::Debug + 'static>(_: T) {}
    moved(RsaPssParams::<Any>::default());
    moved(RsaOaepParams::<Any>::default().try_clone()?);
    moved(RsaPrivateKeyOwned::try_from(&made::private_key(3)[..])?.try_clone()?);
    moved(SecretDocument::try_from(&made::private_key(3)[..])?.try_clone()?);
    assert_eq!(HashSet::from([UintRef::new(&[7])?, UintRef::new(&[0, 7])?]).len(), 1);
    let der = made::public_key();
    let owned = RsaPublicKeyOwned::try_from(RsaPublicKeyRef::try_from(&der[..])?)?;
    assert_eq!(HashSet::from([owned.try_clone()?, owned.clone(), owned]).len(), 1);
    let params = RsaPssParams::<Any>::default();
    assert_eq!(HashSet::from([params.try_clone()?, params]).len(), 1);
    assert!(UintRef::new(&[9])? < UintRef::new(&[1, 0])? && AnyRef::NULL < AnyRef::new(Tag::SEQUENCE, &[])?);
    assert!(Tag::INTEGER < Tag::SEQUENCE && Length::default() == Length::ZERO);
    let length: usize = RsaPublicKeyRef::try_from(&made::public_key()[..])?.encoded_len()?.try_into()?;
    assert_eq!((length, Length::MAX.to_string()), (made::public_key().len(), "4294967295".into()));
    let printed = format!("{:?}", RsaPrivateKeyOwned::from_pkcs1_der(&made::private_key(1))?.other_prime_infos);
    assert_eq!(printed, "Some(OtherPrimeInfos([OtherPrimeInfo { .. }]))");
    Ok(())
}
