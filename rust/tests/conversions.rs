//! Types are made of one another: borrowed, owned, views, structs and documents; and what they have of the traits of
//! `core`.

mod made;

use pkcs1_proved::der::asn1::{ObjectIdentifier, OctetStringRef, UintRef};
use pkcs1_proved::der::{Encode, Tag, TagNumber};
use pkcs1_proved::holders::{Held, Identifier, Number};
use pkcs1_proved::{
    Result, RsaOaepParams, RsaOaepParamsRef, RsaOaepParamsView, RsaPrivateKeyRef, RsaPrivateKeyView, RsaPssParams,
    RsaPssParamsRef, RsaPssParamsView, RsaPublicKey, RsaPublicKeyRef, Sha256,
};

/// The public key outlives the private one.
fn public_key_of(der: &[u8]) -> Result<RsaPublicKeyRef<'_>> {
    Ok(RsaPrivateKeyRef::try_from(der)?.public_key())
}

fn bits<U: Number>(key: &RsaPublicKey<U>) -> u64 {
    key.modulus.as_number().bit_len()
}

fn salt<P: Held, O: Identifier>(params: &RsaPssParams<P, O>) -> (usize, u8) {
    (params.hash.oid.as_identifier().as_bytes().len(), params.salt_len)
}

fn source<P: Held, O: Identifier>(params: &RsaOaepParams<P, O>) -> Option<Tag> {
    params.p_source.parameters.as_ref().map(|any| any.as_any().tag())
}

#[test]
fn a_public_key_lives_as_long_as_the_octets() {
    let der = made::private_key(0);
    let public = public_key_of(&der).unwrap();
    let key = RsaPrivateKeyRef::try_from(&der[..]).unwrap();
    assert_eq!((RsaPublicKeyRef::from(&key), RsaPublicKeyRef::from(key), bits(&public)), (public, public, 2048));
}

#[test]
fn structs_are_made_of_views() {
    let (der, pss) = (made::private_key(0), made::pss(made::SHA_256, 32));
    let key = RsaPrivateKeyRef::try_from(RsaPrivateKeyView::try_from(&der[..]).unwrap()).unwrap();
    assert_eq!(key.encode_to_slice(&mut [0; 1400]).unwrap(), der);
    let public: RsaPublicKeyRef<'_> = RsaPrivateKeyView::try_from(&der[..]).unwrap().public_key();
    assert_eq!(public, key.public_key());
    let view = RsaPssParamsView::try_from(&pss[..]).unwrap();
    assert_eq!((RsaPssParamsRef::from(view), salt(&view)), (RsaPssParamsRef::new::<Sha256>(32), (9, 32)));
    let view = RsaOaepParamsView::default();
    assert_eq!((RsaOaepParamsRef::from(view), source(&view)), (RsaOaepParamsRef::default(), Some(Tag::OCTET_STRING)));
}

#[test]
fn parameters_are_constants() {
    const PARAMS: RsaPssParamsRef<'static> = RsaPssParamsRef::new::<Sha256>(32);
    assert!(PARAMS.uses_hash::<Sha256>());
}

#[test]
fn octets_lengths_and_tags() {
    fn octets(it: &(impl AsRef<[u8]> + ?Sized)) -> &[u8] {
        it.as_ref()
    }
    let number = UintRef::new(&[0, 1, 0]).unwrap();
    assert_eq!((octets(&number), number.len().to_usize(), number.is_empty()), (&[1, 0][..], 2, false));
    assert_eq!(octets(&ObjectIdentifier::new_unwrap("1.2")), [0x2a]);
    assert_eq!(octets(&OctetStringRef::new(b"label").unwrap()), b"label");
    for number in 0..=30 {
        assert_eq!(Tag::context(TagNumber::try_from(number).unwrap()).octet(), 0xa0 + number);
    }
    assert!((31..=255).all(|number| TagNumber::try_from(number).is_err()));
}

#[cfg(feature = "alloc")]
mod with_alloc {
    use super::*;
    use pkcs1_proved::der::asn1::{Any, AnyRef, Uint};
    use pkcs1_proved::der::{Document, SecretDocument};
    use pkcs1_proved::spki::{AlgorithmIdentifierOwned, AlgorithmIdentifierRef};
    use pkcs1_proved::{RsaOaepParamsOwned, RsaPrivateKeyOwned, RsaPssParamsOwned, RsaPublicKeyOwned};

    #[test]
    fn what_borrows_and_what_owns() {
        macro_rules! both_ways {
            ($value:expr, $borrowed:ident, $owned:ident) => {
                let value = $value;
                let owned = $owned::try_from(&value).unwrap();
                assert!($borrowed::from(&owned) == value && owned == $owned::try_from(value).unwrap());
                assert!(owned.try_clone().unwrap() == owned);
            };
        }
        both_ways!(UintRef::new(&[0xc1, 0x7f]).unwrap(), UintRef, Uint);
        both_ways!(AnyRef::new(Tag::SEQUENCE, &[1, 2]).unwrap(), AnyRef, Any);
        both_ways!(pkcs1_proved::ALGORITHM_ID, AlgorithmIdentifierRef, AlgorithmIdentifierOwned);
        both_ways!(RsaPssParamsRef::new::<Sha256>(32), RsaPssParamsRef, RsaPssParamsOwned);
        both_ways!(RsaOaepParamsRef::new_with_label::<Sha256>(b"label"), RsaOaepParamsRef, RsaOaepParamsOwned);
        let der = made::public_key();
        both_ways!(RsaPublicKeyRef::try_from(&der[..]).unwrap(), RsaPublicKeyRef, RsaPublicKeyOwned);
        for others in [0, 1, 9] {
            let der = made::private_key(others);
            let key = RsaPrivateKeyRef::try_from(&der[..]).unwrap();
            let owned = RsaPrivateKeyOwned::try_from(&key).unwrap();
            assert_eq!(RsaPrivateKeyRef::try_from(&owned).unwrap().to_der().unwrap(), der);
            assert_eq!(RsaPrivateKeyOwned::try_from(key).unwrap().to_der().unwrap(), der);
            assert_eq!(RsaPublicKeyRef::from(&owned), public_key_of(&der).unwrap());
        }
    }

    #[test]
    fn lists_of_other_primes_are_gone_through() {
        let der = made::private_key(3);
        let key = RsaPrivateKeyRef::try_from(&der[..]).unwrap();
        let owned = RsaPrivateKeyOwned::try_from(&key).unwrap();
        let (others, copies) = (&key.other_prime_infos.unwrap(), &owned.other_prime_infos.unwrap());
        let mut left = 3;
        for (other, copy) in others.into_iter().zip(copies) {
            assert_eq!((other.prime, other.coefficient), (copy.prime.as_number(), copy.coefficient.as_number()));
            left -= 1;
        }
        assert_eq!(left, 0);
    }

    #[test]
    fn documents_are_made_of_keys() {
        let (private, public) = (made::private_key(2), made::public_key());
        let key = RsaPrivateKeyRef::try_from(&private[..]).unwrap();
        assert_eq!(SecretDocument::try_from(&key).unwrap().as_bytes(), private);
        assert_eq!(SecretDocument::try_from(RsaPrivateKeyOwned::try_from(key).unwrap()).unwrap().as_bytes(), private);
        let key = RsaPublicKeyRef::try_from(&public[..]).unwrap();
        let document = Document::try_from(RsaPublicKeyOwned::try_from(key).unwrap()).unwrap();
        assert_eq!((Document::try_from(&key).unwrap(), document.to_vec()), (document.clone(), public));
        assert!(!document.is_empty() && document.len().to_usize() == document.as_ref().len());
    }

    #[test]
    fn numbers_are_printed_in_hexadecimal() {
        let number = Uint::new(&[0, 0xc1, 0x7f]).unwrap();
        assert_eq!((format!("{number:?} {number:x}"), number.as_ref()), ("0xc17f c17f".into(), &[0xc1, 0x7f][..]));
        assert_eq!(
            (format!("{:?}", number.as_number()), number.len().to_usize(), number.is_empty()),
            ("0xc17f".into(), 2, false)
        );
    }
}
