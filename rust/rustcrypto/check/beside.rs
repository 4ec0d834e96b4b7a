//! Each octet of small encodings is changed in each way, and each is cut off at each octet. Where this crate and
//! RustCrypto's pkcs1 read otherwise, it is one of the differences that the page lists.
use der::{Decode, Encode, Error, ErrorKind, Length, Tag};
use pkcs1 as ours;

/// The names of 0.8, of RustCrypto's crate.
#[cfg(feature = "newer")]
mod borrowed {
    pub use theirs::{Error, TrailerField, Version};
    pub use theirs::{RsaOaepParamsRef, RsaPrivateKeyRef, RsaPssParamsRef, RsaPublicKeyRef};
}
#[cfg(not(feature = "newer"))]
mod borrowed {
    pub use theirs::{Error, TrailerField, Version};
    pub use theirs::{RsaOaepParams as RsaOaepParamsRef, RsaPssParams as RsaPssParamsRef};
    pub use theirs::{RsaPrivateKey as RsaPrivateKeyRef, RsaPublicKey as RsaPublicKeyRef};
}

const ROWS: &[&str] = &[
    "3006020107020103",
    "302802010102010702010302010502010b02010d020102020104020106300b3009020111020102020103",
    "301d02010102010702010302010502010b02010d0201020201040201063000",
    "3034a00f300d06096086480165030402010500a11c301a06092a864886f70d010108300d06096086480165030402010500a203020120",
    "300aa203020114a303020101",
    "3012a210300e06092a864886f70d010109040161",
    "020101",
];

/// Both read the same and write it alike, or both refuse it with the same error, position and all. Or only ours refuses
/// it, as `Value` of SEQUENCE. Returns whether that was so.
fn alike<T: Encode, U: Encode>(ours: der::Result<T>, theirs: der::Result<U>, der: &[u8]) -> bool {
    match (ours, theirs) {
        (Ok(ours), Ok(theirs)) => assert_eq!(ours.to_der(), theirs.to_der(), "{der:x?}"),
        (Err(ours), Err(theirs)) => assert_eq!(ours, theirs, "{der:x?}"),
        (Err(ours), Ok(_)) => {
            assert_eq!(ours.kind(), ErrorKind::Value { tag: Tag::Sequence }, "{der:x?}");
            return true;
        }
        (Ok(_), Err(theirs)) => panic!("only ours reads {der:x?}: {theirs}"),
    }
    false
}

/// An error of `from_der`. In 0.8 its count of what is left, which isn't the same, is set aside.
fn counted(error: Error) -> Error {
    match (error.kind(), error.position()) {
        (ErrorKind::TrailingData { decoded, .. }, Some(position)) if cfg!(feature = "newer") => {
            ErrorKind::TrailingData { decoded, remaining: Length::ZERO }.at(position)
        }
        _ => error,
    }
}

/// The octets of a row. RustCrypto's 0.8 reads parameters only where they stay.
fn octets(row: &str) -> &'static [u8] {
    let octets = (0..row.len()).step_by(2).map(|at| u8::from_str_radix(&row[at..at + 2], 16).unwrap());
    Vec::leak(octets.collect())
}

/// What is read of an encoding: how often only ours refuses it, by type.
fn read(der: &'static [u8], refused: &mut [u32; 6]) {
    macro_rules! asn1 {
        ($from:ident $name:ident) => {
            $from::$name::try_from(der).map_err(|error| match error {
                $from::Error::Asn1(error) => error,
                error => panic!("{error}"),
            })
        };
    }
    macro_rules! types {
        ($($at:literal $name:ident $($owned:ident)?;)*) => { $(
            let theirs = || borrowed::$name::from_der(der).map_err(counted);
            let only = alike(ours::$name::from_der(der).map_err(counted), theirs(), der);
            refused[$at] += u32::from(only);
            $(
                assert_eq!(alike(ours::$owned::from_der(der).map_err(counted), theirs(), der), only);
                assert_eq!(alike(asn1!(ours $name), asn1!(borrowed $name), der), only);
            )?
        )* };
    }
    types! {
        0 RsaPublicKeyRef RsaPublicKeyOwned;
        1 RsaPrivateKeyRef RsaPrivateKeyOwned;
        2 RsaPssParamsRef RsaPssParamsOwned;
        3 RsaOaepParamsRef RsaOaepParamsOwned;
        4 Version;
        5 TrailerField;
    }
}

#[test]
fn damaged() {
    let mut refused = [0; 6];
    for row in ROWS {
        let whole = octets(row);
        for at in 0..whole.len() {
            read(&whole[..at], &mut refused);
            let changed = |octet: u8| Vec::leak([&whole[..at], &[octet], &whole[at + 1..]].concat());
            (0..=255).for_each(|octet| read(changed(octet), &mut refused));
        }
    }
    // Malformed identifiers. In 0.7 also an empty list of other primes, and fields in another order. In 0.8 also nested
    // lengths that overlap.
    let newer = cfg!(feature = "newer");
    assert_eq!(refused, if newer { [0, 0, 61, 4, 0, 0] } else { [0, 1047, 28, 8, 0, 0] });
}

/// What follows an encoding that only ours refuses is looked at in a whole slice.
#[test]
fn behind() {
    let der = octets("300ea20c300a06052b8003021a04016100");
    let [ours, theirs] = [ours::RsaOaepParamsRef::from_der(der).err(), borrowed::RsaOaepParamsRef::from_der(der).err()];
    assert_eq!(ours.unwrap().kind(), ErrorKind::Value { tag: Tag::Sequence });
    let theirs = theirs.unwrap();
    assert!(matches!(theirs.kind(), ErrorKind::TrailingData { .. }));
    assert_eq!(ours::RsaOaepParamsRef::try_from(der), Err(theirs.into()));
}
