//! Keys are read, and written as they were read.

mod made;

use pkcs1_proved::der::asn1::UintRef;
use pkcs1_proved::der::{Decode, Encode, ErrorKind, Tag};
use pkcs1_proved::pkcs8::PrivateKeyInfoRef;
use pkcs1_proved::{Error, RsaPrivateKeyRef, RsaPrivateKeyView, RsaPublicKeyRef, Version};

#[test]
fn a_public_key_is_read_and_written() {
    let der = made::public_key();
    let key = RsaPublicKeyRef::try_from(&der[..]).unwrap();
    assert_eq!(key.modulus.as_bytes(), [0xc1; 256]);
    assert_eq!((key.modulus.bit_len(), key.public_exponent.as_bytes()), (2048, &[1, 0, 1][..]));
    made::check_written(&key, &der);
}

#[test]
fn bit_lengths() {
    let octets = [&[0; 512][..], &[1], &[0; 512]].concat();
    for (octets, bits) in [
        (&[0][..], 0),
        (&[0, 0], 0),
        (&[1], 1),
        (&[0x7f], 7),
        (&[0x80], 8),
        (&[0, 0xff], 8),
        (&[1, 0], 9),
        (&octets, 4097),
    ] {
        assert_eq!(UintRef::new(octets).unwrap().bit_len(), bits);
    }
    assert_eq!(UintRef::new(&[]).unwrap_err().kind(), ErrorKind::Length { tag: Tag::INTEGER });
}

#[test]
fn a_private_key_of_two_primes_takes_no_memory() {
    let der = made::private_key(0);
    let key = RsaPrivateKeyRef::try_from(&der[..]).unwrap();
    assert_eq!((key.version(), key.prime2.as_bytes()), (Version::TwoPrime, &[0x92; 128][..]));
    assert!(key.other_prime_infos.is_none());
    made::check_written(&key.clone(), &der);
    assert_eq!(key.public_key().modulus, key.modulus);
}

#[test]
fn a_view_has_any_number_of_primes() {
    for others in [1, 3, 9, 40] {
        let der = made::private_key(others);
        let key = RsaPrivateKeyView::from_der(&der).unwrap();
        assert_eq!(key.version(), Version::Multi);
        let mut primes = key.other_primes();
        for left in (0..=others).rev() {
            assert_eq!((primes.remaining(), primes.len(), primes.size_hint()), (left, left, (left, Some(left))));
            assert_eq!(primes.next().is_some(), left > 0);
        }
        let container = made::container(&der, None);
        let key = PrivateKeyInfoRef::from_der(&container).unwrap().rsa_view().unwrap();
        assert_eq!((key.as_bytes(), key.other_primes().count()), (&der[..], others));
    }
}

#[test]
fn attributes_are_replaced() {
    let key = made::private_key(0);
    let all = [None, Some(&[][..]), Some(&[0x30, 0][..]), Some(&[0x5a; 300])];
    for before in all {
        let der = made::container(&key, before);
        let info = PrivateKeyInfoRef::from_der(&der).unwrap();
        assert_eq!(info.attributes, before);
        for attributes in all {
            let wanted = made::container(&key, attributes);
            let changed = PrivateKeyInfoRef { attributes, ..info };
            assert_eq!(changed.encode_to_slice(&mut [0; 2000]).unwrap(), wanted);
        }
    }
}

#[test]
fn octets_after_the_last_part_are_refused() {
    for (others, more) in [(0, 1), (0, 2), (1, 1), (1, 2)] {
        let parts = &made::private_key(others)[4..];
        let der = made::tlv(0x30, &[parts, &[5, 0][..more]].concat());
        assert_eq!(made::kind(RsaPrivateKeyView::try_from(&der[..])), ErrorKind::TrailingData);
        if cfg!(feature = "alloc") || others == 0 {
            assert_eq!(made::kind(RsaPrivateKeyRef::try_from(&der[..])), ErrorKind::TrailingData);
        }
    }
}

#[test]
fn errors_say_what_is_wrong() {
    let mut der = made::public_key();
    der.push(0);
    let error = RsaPublicKeyRef::try_from(&der[..]).unwrap_err();
    assert!(matches!(error, Error::Asn1(inner) if inner.kind() == ErrorKind::TrailingData));
    assert_eq!(error.to_string(), "PKCS#1 ASN.1 error: bytes follow the value");
    let source = std::error::Error::source(&error).unwrap();
    assert_eq!(source.to_string(), "bytes follow the value");
    let negative = made::sequence(&[made::tlv(2, &[0x80]), made::tlv(2, &[3])]);
    let error = RsaPublicKeyRef::try_from(&negative[..]).unwrap_err();
    assert_eq!(error.to_string(), "PKCS#1 ASN.1 error: the value of tag 0x02 is not allowed");
    fn fails() -> Result<(), Box<dyn std::error::Error + Send + Sync>> {
        RsaPrivateKeyRef::try_from(&[0x30, 0][..])?;
        Ok(())
    }
    assert_eq!(fails().unwrap_err().to_string(), "PKCS#1 ASN.1 error: the input ends too early");
    let kinds =
        [ErrorKind::Incomplete, ErrorKind::Value { tag: Tag::INTEGER }, ErrorKind::Value { tag: Tag::SEQUENCE }];
    let errors = kinds.into_iter().chain(kinds).map(|kind| Error::Asn1(kind.into()));
    assert_eq!(errors.collect::<std::collections::HashSet<_>>().len(), 3);
}

#[test]
fn no_secret_number_is_printed() {
    let der = made::private_key(0);
    let key = RsaPrivateKeyRef::try_from(&der[..]).unwrap();
    let view = RsaPrivateKeyView::try_from(&der[..]).unwrap();
    let public = format!("modulus: 0x{}, public_exponent: 0x010001", "c1".repeat(256));
    assert_eq!(format!("{:?}", key.public_key()), format!("RsaPublicKey {{ {public} }}"));
    assert_eq!(format!("{key:?}"), format!("RsaPrivateKey {{ version: TwoPrime, {public}, .. }}"));
    assert_eq!(format!("{view:?}"), format!("RsaPrivateKeyView {{ version: TwoPrime, {public}, .. }}"));
    assert_eq!(format!("{:x} {:#x}", key.public_exponent, key.public_exponent), "010001 0x010001");
}

#[cfg(not(feature = "alloc"))]
#[test]
fn without_alloc_there_is_no_memory_for_more_primes() {
    let der = made::private_key(1);
    assert_eq!(made::kind(RsaPrivateKeyRef::try_from(&der[..])), ErrorKind::OutOfMemory);
}

#[cfg(feature = "alloc")]
mod with_alloc {
    use super::*;
    use pkcs1_proved::der::{Document, SecretDocument};
    use pkcs1_proved::{
        DecodeRsaPrivateKey, DecodeRsaPublicKey, EncodeRsaPrivateKey, EncodeRsaPublicKey, RsaPrivateKeyOwned,
        RsaPublicKeyOwned,
    };

    #[test]
    fn owned_keys_are_read_cloned_and_written() {
        for others in 0..=12 {
            let der = made::private_key(others);
            let key = RsaPrivateKeyOwned::from_pkcs1_der(&der).unwrap().clone();
            assert_eq!(key.to_pkcs1_der().unwrap().as_bytes(), der);
            assert_eq!(RsaPrivateKeyOwned::try_from(&der[..]).unwrap().to_der().unwrap(), der);
            let key = RsaPrivateKeyRef::try_from(&der[..]).unwrap();
            assert_eq!(
                (key.version().is_multi(), key.other_prime_infos.as_ref().map_or(0, |it| it.len())),
                (others > 0, others)
            );
            made::check_written(&key, &der);
            let other_prime_infos = key.other_prime_infos.as_ref().map(|list| list.to_vec().into());
            made::check_written(&RsaPrivateKeyRef { other_prime_infos, ..key.clone() }, &der);
            let container = made::container(&der, None);
            let key = RsaPrivateKeyOwned::from_pkcs8_der(&container).unwrap();
            assert_eq!(key.to_pkcs8_der().unwrap().as_bytes(), container);
        }
        let der = made::public_key();
        let key = RsaPublicKeyOwned::from_pkcs1_der(&der).unwrap();
        assert_eq!(key.clone().to_pkcs1_der().unwrap().as_bytes(), der);
        assert_eq!(key, RsaPublicKeyOwned::from_der(&der).unwrap());
    }

    #[test]
    fn documents_hold_one_sequence() {
        let der = made::private_key(0);
        let document = SecretDocument::try_from(&der[..]).unwrap();
        assert!(!format!("{document:?}").contains("209"));
        assert_eq!(document.decode_msg::<RsaPrivateKeyRef<'_>>().unwrap().prime1.as_bytes(), [0x91; 128]);
        assert_eq!(Document::from_der(&der[..9]).unwrap_err().kind(), ErrorKind::Incomplete);
    }
}
