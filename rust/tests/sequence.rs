//! Types of one's own by `sequence!`: what each accepts, writes again and refuses stands in sequence.rows.

use pkcs1_proved::der::asn1::{
    AnyRef, BitStringRef, InRange, Null, ObjectIdentifier, ObjectIdentifierRef, OctetStringRef, OpaqueSet, SequenceOf,
};
use pkcs1_proved::der::{Decode, Encode, ErrorKind, Result};
use pkcs1_proved::spki::AlgorithmIdentifier;
use pkcs1_proved::{RsaPublicKeyRef, UintRef, sequence};

sequence! {
    /// A DSA or ECDSA signature (RFC 3279 2.2.3), over any numbers.
    #[derive(Clone, Copy, Debug, PartialEq, Eq)]
    pub struct DssSigValue<U> {
        /// The number r.
        pub r: U,
        /// The number s.
        pub s: U,
    }

    #[derive(Clone, Copy, Debug, PartialEq, Eq)]
    struct DsaParams<'a> { p: UintRef<'a>, q: UintRef<'a>, g: UintRef<'a> }

    #[derive(Clone, Copy, Debug, PartialEq, Eq)]
    pub(crate) struct DsaAlgorithm<'a> {
        oid: ObjectIdentifierRef<'a>,
        pub(crate) parameters: Option<DsaParams<'a>>,
    }

    /// RFC 5915 3.
    #[derive(Clone, Copy, Debug, PartialEq, Eq)]
    pub struct EcPrivateKey<'a> {
        /// ecPrivkeyVer1.
        _: Expected<1>,
        pub private_key: OctetStringRef<'a>,
        pub parameters: [0] explicit Option<ObjectIdentifierRef<'a>>,
        pub public_key: [1] explicit Option<BitStringRef<'a>>,
    }

    /// RFC 5958 2.
    #[derive(Clone, Copy, Debug, PartialEq, Eq)]
    pub struct OneAsymmetricKey<'a> {
        pub version: InRange<0, 1>,
        pub algorithm: AlgorithmIdentifier<AnyRef<'a>, ObjectIdentifierRef<'a>>,
        pub private_key: OctetStringRef<'a>,
        pub attributes: [0] implicit Option<OpaqueSet<'a>>,
        pub public_key: [1] implicit Option<BitStringRef<'a>>,
    }

    /// RFC 5280 4.1.
    #[derive(Clone, Copy, Debug, PartialEq, Eq)]
    pub struct Extension<'a> {
        pub id: ObjectIdentifier,
        pub critical: bool = false,
        pub value: OctetStringRef<'a>,
    }

    /// RFC 5280 4.2.1.9: a default, and then an OPTIONAL field.
    #[derive(Clone, Copy, Debug, PartialEq, Eq)]
    pub struct BasicConstraints {
        pub ca: bool = false,
        pub path_len: Option<u8>,
    }

    /// RFC 5280 4.2.1.1: three OPTIONAL fields in a row.
    #[derive(Clone, Copy, Debug, PartialEq, Eq)]
    pub struct AuthorityKeyIdentifier<'a> {
        pub key_identifier: [0] implicit Option<OctetStringRef<'a>>,
        pub issuer: [1] implicit Option<OpaqueSet<'a>>,
        pub serial_number: [2] implicit Option<UintRef<'a>>,
    }

    /// OPTIONAL fields in a row, and one that has to be there.
    #[derive(Clone, Copy, Debug, PartialEq, Eq)]
    struct Version<'a> {
        major: [0] explicit Option<u8>,
        minor: Option<u8>,
        flag: bool = false,
        name: OctetStringRef<'a>,
    }

    /// RFC 5280 4.1.2.7, of an RSA key.
    #[derive(Clone, Copy, Debug, PartialEq, Eq)]
    pub struct Subject<'a> {
        pub algorithm: AlgorithmIdentifier<AnyRef<'a>>,
        pub key: bit_string containing RsaPublicKeyRef<'a>,
    }

    /// An algorithm with parameters of one's own.
    #[derive(Clone, Copy, Debug, PartialEq, Eq)]
    struct DsaKey<'a> {
        algorithm: AlgorithmIdentifier<DsaParams<'a>, ObjectIdentifierRef<'a>>,
        key: bit_string containing UintRef<'a>,
    }

    /// Each form of a field that has to be there.
    #[derive(Clone, Copy, Debug, PartialEq, Eq)]
    struct Required<'a> {
        flag: bool,
        null: Null,
        inner: octet_string containing DsaAlgorithm<'a>,
        number: [3] implicit u8,
        wrapped: [4] explicit DsaParams<'a>,
        replaced: [30] implicit DsaParams<'a>,
        list: SequenceOf<'a, DssSigValue<UintRef<'a>>>,
    }

    /// Each form of a field that may be left out, in front of another.
    #[derive(Clone, Copy, Debug, PartialEq, Eq)]
    struct Optional {
        bare: Option<bool>,
        a: u8,
        inner: octet_string containing Option<Null>,
        b: u8,
        bits: bit_string containing Option<Null>,
        c: u8,
        tagged: [0] implicit bool = false,
        d: u8,
        wrapped: [1] explicit bool = false,
        e: u8,
        last: octet_string containing Option<u8>,
    }

    #[derive(Clone, Copy, Debug, PartialEq, Eq)]
    struct Empty {}

    #[derive(Clone, Copy, Debug, PartialEq, Eq)]
    struct LastAny<'a> { any: Option<AnyRef<'a>> }
}

#[cfg(feature = "alloc")]
sequence! {
    #[derive(Clone, Debug, PartialEq, Eq)]
    struct Owned {
        number: pkcs1_proved::Uint,
        numbers: Vec<u8>,
        lists: Option<Vec<Vec<bool>>>,
        any: [0] explicit Option<pkcs1_proved::der::asn1::Any>,
    }
}

fn octets(digits: &str) -> Vec<u8> {
    (0..digits.len()).step_by(2).map(|at| u8::from_str_radix(&digits[at..at + 2], 16).unwrap()).collect()
}

/// What is read is written again, in as many octets as are told, and into no room that is too short.
fn written<T: Encode>(read: Result<T>) -> Result<Vec<u8>> {
    let value = read?;
    let length = value.encoded_len()?.to_usize();
    let mut room = vec![0x55; length + 1];
    assert_eq!(value.encode_to_slice(&mut room[..length - 1]).unwrap_err().kind(), ErrorKind::NoRoom);
    assert!(room.iter().all(|octet| *octet == 0x55));
    assert_eq!(value.encode_to_slice(&mut room)?.len(), length);
    assert_eq!(room.pop(), Some(0x55));
    #[cfg(feature = "alloc")]
    assert_eq!(value.to_der()?, room);
    Ok(room)
}

/// What the type of this name makes of the octets, or nothing if it needs an allocator that isn't there.
fn outcome(name: &str, der: &[u8]) -> Option<Result<Vec<u8>>> {
    Some(match name {
        "DssSigValue" => written(DssSigValue::<UintRef<'_>>::from_der(der)),
        "DsaAlgorithm" => written(DsaAlgorithm::from_der(der)),
        "EcPrivateKey" => written(EcPrivateKey::from_der(der)),
        "OneAsymmetricKey" => written(OneAsymmetricKey::from_der(der)),
        "Extension" => written(Extension::from_der(der)),
        "BasicConstraints" => written(BasicConstraints::from_der(der)),
        "AuthorityKeyIdentifier" => written(AuthorityKeyIdentifier::from_der(der)),
        "Version" => written(Version::from_der(der)),
        "Subject" => written(Subject::from_der(der)),
        "DsaKey" => written(DsaKey::from_der(der)),
        "Required" => written(Required::from_der(der)),
        "Optional" => written(Optional::from_der(der)),
        "Empty" => written(Empty::from_der(der)),
        "LastAny" => written(LastAny::from_der(der)),
        #[cfg(feature = "alloc")]
        "Owned" => written(Owned::from_der(der)),
        #[cfg(not(feature = "alloc"))]
        "Owned" => return None,
        _ => panic!("there is no type {name}"),
    })
}

/// A row is a type, an encoding, and after `=` nothing if it is written again, or else the text of its error.
#[test]
fn rows_are_written_again_or_refused() {
    let rows = include_str!("sequence.rows");
    for row in rows.lines().filter(|row| !row.is_empty() && !row.starts_with('#')) {
        let (asked, answer) = row.split_once('=').unwrap();
        let (name, digits) = asked.split_once(' ').unwrap();
        let der = octets(&digits.replace(' ', ""));
        let found = match outcome(name, &der) {
            Some(Ok(again)) => {
                assert_eq!(again, der, "{row}");
                String::new()
            }
            Some(Err(error)) => error.kind().to_string(),
            None => continue,
        };
        assert_eq!(found, answer.trim(), "{row}");
    }
}

#[test]
fn lists_are_made_of_items_too() {
    let [r, s, t] = [7, 0x80, 0].map(|octet| [octet]);
    let [r, s, t] = [&r, &s, &t].map(|octets| UintRef::new(octets).unwrap());
    let items = [DssSigValue { r, s }, DssSigValue { r: s, s: t }];
    let list = SequenceOf::new(&items);
    let der = octets("3012300702010702020080300702020080020100");
    assert_eq!(written(Ok(list)).unwrap(), der);
    let read = SequenceOf::<DssSigValue<UintRef<'_>>>::from_der(&der).unwrap();
    assert!(read == list && read.iter().eq(items) && read.into_iter().count() == 2);
    assert_eq!(format!("{read:?}"), format!("{items:?}"));
    assert!(!read.is_empty() && SequenceOf::<u8>::from_der(&[0x30, 0]).unwrap().is_empty());
    assert!(read != SequenceOf::new(&items[..1]));
}

#[test]
fn a_value_without_an_encoding_is_not_written() {
    let unwritten = |value: &dyn Encode| {
        let mut room = [0x55; 99];
        let error = value.encode_to_slice(&mut room).unwrap_err();
        assert_eq!(value.encoded_len().unwrap_err(), error);
        assert_eq!(room, [0x55; 99]);
        error.kind().to_string()
    };
    let numbers = [InRange::<3, 7>(7), InRange(8)];
    let message = "the value of tag 0x02 is not allowed";
    assert_eq!(unwritten(&numbers[1]), message);
    assert_eq!(unwritten(&SequenceOf::new(&numbers)), message);
    sequence! {
        struct Nested { list: [0] explicit Option<InRange<3, 7>>, number: octet_string containing InRange<3, 7> }
    }
    assert_eq!(unwritten(&Nested { list: Some(numbers[1]), number: numbers[0] }), message);
    assert_eq!(unwritten(&Nested { list: None, number: numbers[1] }), message);
}
