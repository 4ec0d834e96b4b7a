//! Object identifiers: as text, as octets, and as constants of types.

mod made;

use pkcs1_proved::der::Encode;
use pkcs1_proved::der::asn1::ObjectIdentifier;
use pkcs1_proved::der::oid::AssociatedOid;
use pkcs1_proved::{Mgf1, PSpecified, RsaEncryption, RsaOaepParamsRef, RsaPssParamsRef, RsaesOaep, RsassaPss, Sha256};

#[test]
fn each_type_names_its_algorithm() {
    let pkcs1 = |last| vec![0x2a, 0x86, 0x48, 0x86, 0xf7, 0x0d, 1, 1, last];
    let named = [
        (RsaEncryption::OID, pkcs1(1)),
        (RsaesOaep::OID, pkcs1(7)),
        (Mgf1::OID, pkcs1(8)),
        (PSpecified::OID, pkcs1(9)),
        (RsassaPss::OID, pkcs1(10)),
    ];
    let hashes = made::hash_functions().map(|it| (it.oid, it.octets));
    for (oid, octets) in named.into_iter().chain(hashes) {
        assert_eq!(oid.as_bytes(), octets, "{oid}");
        assert_eq!(ObjectIdentifier::from_bytes(&octets), Ok(oid));
    }
    assert_eq!((pkcs1_proved::ALGORITHM_OID, pkcs1_proved::ALGORITHM_ID.oid), (RsaEncryption::OID, RsaEncryption::OID));
    let mut room = [0; 20];
    let id = pkcs1_proved::ALGORITHM_ID.encode_to_slice(&mut room).unwrap();
    assert_eq!(id, [0x30, 13, 6, 9, 0x2a, 0x86, 0x48, 0x86, 0xf7, 0x0d, 1, 1, 1, 5, 0]);
}

#[test]
fn a_type_of_ones_own_names_one_too() {
    struct Own;
    impl AssociatedOid for Own {
        const OID: ObjectIdentifier = ObjectIdentifier::new_unwrap("2.16.840.1.101.3.4.2.1");
    }
    assert_eq!(RsaPssParamsRef::new::<Own>(32), RsaPssParamsRef::new::<Sha256>(32));
    assert!(RsaOaepParamsRef::new_with_label::<Own>(b"label").uses_hash::<Sha256>());
    assert!(RsaPssParamsRef::new::<Sha256>(32).hash.is_hash::<Own>());
}

#[test]
fn text_and_octets() {
    for (text, octets) in [
        ("0.0", &[0][..]),
        ("0.39", &[39]),
        ("1.0", &[40]),
        ("1.39", &[79]),
        ("2.0", &[80]),
        ("2.47", &[127]),
        ("2.48", &[0x81, 0]),
        ("2.5.29.15", &[0x55, 29, 15]),
        ("2.999.3", &[0x88, 0x37, 3]),
        ("1.2.840.113549", &[0x2a, 0x86, 0x48, 0x86, 0xf7, 0x0d]),
        ("1.3.128.0", &[0x2b, 0x81, 0, 0]),
        ("2.340282366920938463463374607431768211375", &[[0x83].as_slice(), &[0xff; 17], &[0x7f]].concat()),
        ("2.340282366920938463463374607431768211376", &[[0x84].as_slice(), &[0x80; 17], &[0]].concat()),
        ("2.340282366920938463463374607431768211455", &[[0x84].as_slice(), &[0x80; 17], &[0x4f]].concat()),
        ("1.0.340282366920938463463374607431768211456", &[[40, 0x84].as_slice(), &[0x80; 17], &[0]].concat()),
        (
            "2.15177100720513508366558296147058741458143803430094840009779784451085189728165691311",
            &[[0xff; 38].as_slice(), &[0x7f]].concat(),
        ),
    ] {
        let oid = ObjectIdentifier::new(text).unwrap();
        assert_eq!((oid.as_bytes(), oid.to_string()), (octets, text.to_string()));
        assert_eq!(text.parse(), Ok(oid));
        assert_eq!(ObjectIdentifier::from_bytes(octets), Ok(oid));
    }
    let over = "2.15177100720513508366558296147058741458143803430094840009779784451085189728165691312";
    for text in [
        "", "1", "1.", ".1", "3.1", "0.40", "1.40", "1.2..3", "1.2.", "1.02", "1.2.00", "01.2", "1.100", "1.2.x",
        " 1.2", "-1.2", over,
    ] {
        assert!(ObjectIdentifier::new(text).is_err(), "{text}");
    }
    let numbers = |count| vec!["1"; count].join(".");
    assert_eq!(ObjectIdentifier::new(&numbers(40)).unwrap().as_bytes().len(), 39);
    assert!(ObjectIdentifier::new(&numbers(41)).is_err());
    for octets in [&[][..], &[0x80], &[0x2a, 0x80, 1], &[1; 40]] {
        assert!(ObjectIdentifier::from_bytes(octets).is_err());
    }
    assert!(ObjectIdentifier::new("1.2").unwrap() < ObjectIdentifier::new("1.2.0").unwrap());
}
