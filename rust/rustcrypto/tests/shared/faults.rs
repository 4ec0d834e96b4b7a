use der::{Decode, DecodePem, Reader, SliceReader};
use pkcs1::{Error, RsaOaepParamsRef, RsaPrivateKeyRef, RsaPssParamsRef, RsaPublicKeyOwned, RsaPublicKeyRef};
use pkcs1::{TrailerField, Version};
use std::error::Error as _;

/// A type, all octets, and the error of `TryFrom`, or of `from_der` if there is no `TryFrom`.
const WHOLE: &[(&str, &str, &str)] = &[
    ("Version", "020102", "malformed ASN.1 DER value for INTEGER at DER byte 3"),
    ("Version", "0203010101", "ASN.1 INTEGER not canonically encoded as DER at DER byte 2"),
    ("Version", "02020100", "incorrect length for INTEGER at DER byte 4"),
    ("Version", "0200", "incorrect length for INTEGER at DER byte 2"),
    ("TrailerField", "020102", "malformed ASN.1 DER value for INTEGER at DER byte 3"),
    ("TrailerField", "02020100", "incorrect length for INTEGER at DER byte 4"),
    (
        "RsaPublicKey",
        "30080201070201030500",
        "trailing data at end of DER message: decoded 8 bytes, 2 bytes remaining at DER byte 8",
    ),
    (
        "RsaPublicKey",
        "302802010102010702010302010502010b02010d020102020104020106300b3009020111020102020103",
        "trailing data at end of DER message: decoded 8 bytes, 34 bytes remaining at DER byte 8",
    ),
    (
        "RsaPublicKey",
        "3006020107020103ff",
        "trailing data at end of DER message: decoded 8 bytes, 1 bytes remaining at DER byte 8",
    ),
    (
        "RsaPublicKey",
        "30080201070201030500ff",
        "trailing data at end of DER message: decoded 8 bytes, 3 bytes remaining at DER byte 8",
    ),
    ("RsaPublicKey", "3006020107020203", "ASN.1 DER message is incomplete: expected 9, actual 8 at DER byte 8"),
    ("RsaPublicKey", "3006020107040103", "unexpected ASN.1 DER tag: expected INTEGER, got OCTET STRING"),
    ("RsaPublicKey", "3006020107020183", "malformed ASN.1 DER value for INTEGER at DER byte 8"),
    ("RsaPrivateKey", "3003020102", "malformed ASN.1 DER value for INTEGER at DER byte 5"),
    ("RsaPrivateKey", "30050203010101", "ASN.1 INTEGER not canonically encoded as DER at DER byte 4"),
    (
        "RsaPrivateKey",
        "301b02010102010702010302010502010b02010d020102020104020106",
        "malformed ASN.1 DER value for INTEGER at DER byte 29",
    ),
    (
        "RsaPrivateKey",
        "301d02010102010702010302010502010b02010d0201020201040201063000",
        "malformed ASN.1 DER value for SEQUENCE at DER byte 31",
    ),
    (
        "RsaPrivateKey",
        "301e02010102010702010302010502010b02010d0201020201040201063000ff",
        "malformed ASN.1 DER value for SEQUENCE at DER byte 31",
    ),
    ("RsaPssParams", "300152", "trailing data at end of DER message: decoded 2 bytes, 1 bytes remaining at DER byte 2"),
    ("RsaPssParams", "3005a303020102", "malformed ASN.1 DER value for INTEGER at DER byte 7"),
    ("RsaPssParams", "3007a3050203000001", "ASN.1 INTEGER not canonically encoded as DER at DER byte 6"),
    (
        "RsaPssParams",
        "3007a203020114a200",
        "trailing data at end of DER message: decoded 7 bytes, 2 bytes remaining at DER byte 7",
    ),
    (
        "RsaPssParams",
        "300aa303020101a203020120",
        "trailing data at end of DER message: decoded 7 bytes, 5 bytes remaining at DER byte 7",
    ),
    (
        "RsaOaepParams",
        "3003020200f0",
        "trailing data at end of DER message: decoded 2 bytes, 4 bytes remaining at DER byte 2",
    ),
    (
        "RsaOaepParams",
        "300ea20c300a06052b8003021a04016100",
        "trailing data at end of DER message: decoded 16 bytes, 1 bytes remaining at DER byte 16",
    ),
];

/// A type, octets of which 3 were read before, and the error of `decode`.
const WITHIN: &[(&str, &str, &str)] = &[
    (
        "RsaPublicKey",
        "0201073006020107020203",
        "ASN.1 DER message is incomplete: expected 12, actual 11 at DER byte 11",
    ),
    ("RsaPublicKey", "0201073006020107020183", "malformed ASN.1 DER value for INTEGER at DER byte 11"),
    ("RsaPrivateKey", "02010730050203010101", "ASN.1 INTEGER not canonically encoded as DER at DER byte 7"),
    ("RsaPssParams", "0201073005a303020102", "malformed ASN.1 DER value for INTEGER at DER byte 10"),
    ("RsaPssParams", "0201073003a3020201", "ASN.1 DER message is incomplete: expected 9, actual 8 at DER byte 8"),
    ("Version", "020107020102", "malformed ASN.1 DER value for INTEGER at DER byte 6"),
];

/// A type, and octets that RustCrypto's crate reads: a nested value ends before its length does, and what is left of
/// that is read as what follows; or an identifier is malformed.
const READ_THERE: &[(&str, &str)] = &[
    (
        "RsaPrivateKey",
        "303302010102010702010302010502010b02010d0201020201040201063016300a0201110201020201033009020113020102020104",
    ),
    ("RsaPssParams", "300aa20402017fa303020101"),
    ("RsaPssParams", "3014a012300b0609608648016503040201a203020120"),
    ("RsaOaepParams", "300ea20c300a06052b8003021a040161"),
];

/// A public key with octets after its fields. RustCrypto's crate reads it wherever nobody looks for what is left.
const LEFT: &str = "30080201070201030500";

/// A public key with a negative exponent.
const NEGATIVE: &str = "3006020107020183";

/// What `LEFT` is, read in a slice that may have more, and from PEM.
fn left() -> [Option<der::Error>; 2] {
    let text = der::pem::encode_string("RSA PUBLIC KEY", der::pem::LineEnding::LF, octets(LEFT)).unwrap();
    [RsaPublicKeyRef::from_der_partial(octets(LEFT)).err(), RsaPublicKeyOwned::from_pem(text).err()]
}

/// The octets of a row. RustCrypto's crate reads parameters only where they stay.
fn octets(row: &str) -> &'static [u8] {
    let octets = (0..row.len()).step_by(2).map(|at| u8::from_str_radix(&row[at..at + 2], 16).unwrap());
    Vec::leak(octets.collect())
}

/// The errors of the type's `TryFrom` and `decode`.
macro_rules! errors {
    ($type:ident, $der:ident, $reader:ident) => {
        ($type::try_from($der).err(), $type::decode($reader).err())
    };
}

/// The error of a whole slice, and that of a reader.
fn errors(name: &str, der: &'static [u8], reader: &mut SliceReader<'static>) -> (Option<Error>, Option<der::Error>) {
    match name {
        "Version" => (Version::from_der(der).err().map(Error::from), Version::decode(reader).err()),
        "TrailerField" => (TrailerField::from_der(der).err().map(Error::from), TrailerField::decode(reader).err()),
        "RsaPublicKey" => errors!(RsaPublicKeyRef, der, reader),
        "RsaPrivateKey" => errors!(RsaPrivateKeyRef, der, reader),
        "RsaPssParams" => errors!(RsaPssParamsRef, der, reader),
        "RsaOaepParams" => errors!(RsaOaepParamsRef, der, reader),
        _ => panic!("{name}"),
    }
}

#[test]
fn faults() {
    for (name, row, said) in WHOLE {
        let der = octets(row);
        let error = errors(name, der, &mut SliceReader::new(der).unwrap()).0.unwrap();
        assert_eq!(error.to_string(), format!("PKCS#1 ASN.1 error: {said}"), "{name} {row}");
        assert_eq!(error.source().unwrap().to_string(), *said, "{name} {row}");
    }
    for (name, row, said) in WITHIN {
        let mut reader = SliceReader::new(octets(row)).unwrap();
        reader.read_slice(3u8.into()).unwrap();
        let error = errors(name, &[], &mut reader).1.unwrap();
        assert_eq!(error.to_string(), *said, "{name} {row}");
    }
    assert_eq!(Error::KeyMalformed.to_string(), "PKCS#1 cryptographic key data malformed");
    assert!(Error::KeyMalformed.source().is_none());
}
