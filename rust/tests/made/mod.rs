//! Encodings for the tests, and what reading them tells.
#![allow(dead_code)]

use pkcs1_proved::der::oid::{AssociatedOid, ObjectIdentifier};
use pkcs1_proved::der::{Encode, ErrorKind};
use pkcs1_proved::spki::AlgorithmIdentifierRef;
use pkcs1_proved::{
    RsaOaepParamsRef, RsaPssParamsRef, Sha1, Sha3_256, Sha3_384, Sha3_512, Sha224, Sha256, Sha384, Sha512, Sha512_224,
    Sha512_256,
};

/// A hash function that has a name: what its type gives.
pub struct HashFunction {
    pub octets: Vec<u8>,
    pub oid: ObjectIdentifier,
    pub pss: RsaPssParamsRef<'static>,
    pub oaep: RsaOaepParamsRef<'static>,
    pub pss_uses: fn(&RsaPssParamsRef<'_>) -> bool,
    pub oaep_uses: fn(&RsaOaepParamsRef<'_>) -> bool,
    pub is_hash: fn(&AlgorithmIdentifierRef<'_>) -> bool,
}

/// All of them.
pub fn hash_functions() -> [HashFunction; 10] {
    fn of<D: AssociatedOid>(octets: Vec<u8>) -> HashFunction {
        HashFunction {
            octets,
            oid: D::OID,
            pss: RsaPssParamsRef::new::<D>(20),
            oaep: RsaOaepParamsRef::new::<D>(),
            pss_uses: |params| params.uses_hash::<D>(),
            oaep_uses: |params| params.uses_hash::<D>(),
            is_hash: |algorithm| algorithm.is_hash::<D>(),
        }
    }
    let nist = |last| vec![0x60, 0x86, 0x48, 1, 0x65, 3, 4, 2, last];
    [
        of::<Sha1>(vec![0x2b, 0x0e, 3, 2, 0x1a]),
        of::<Sha256>(nist(1)),
        of::<Sha384>(nist(2)),
        of::<Sha512>(nist(3)),
        of::<Sha224>(nist(4)),
        of::<Sha512_224>(nist(5)),
        of::<Sha512_256>(nist(6)),
        of::<Sha3_256>(nist(8)),
        of::<Sha3_384>(nist(9)),
        of::<Sha3_512>(nist(10)),
    ]
}

/// The kind of the error of reading.
pub fn kind<T>(read: pkcs1_proved::Result<T>) -> ErrorKind {
    match read.err() {
        Some(pkcs1_proved::Error::Asn1(error)) => error.kind(),
        other => panic!("{other:?}"),
    }
}

/// What is written is this, and with too little room nothing.
pub fn check_written(value: &impl Encode, der: &[u8]) {
    assert_eq!(value.encoded_len().unwrap().to_usize(), der.len());
    let mut room = vec![0x55; der.len() + 9];
    for count in [0, 1, der.len() - 1] {
        assert_eq!(value.encode_to_slice(&mut room[..count]).unwrap_err().kind(), ErrorKind::NoRoom);
        assert!(room.iter().all(|octet| *octet == 0x55));
    }
    assert_eq!(value.encode_to_slice(&mut room).unwrap(), der);
    assert!(room[der.len()..].iter().all(|octet| *octet == 0x55));
}

/// An encoding of this tag and contents.
pub fn tlv(tag: u8, contents: &[u8]) -> Vec<u8> {
    let octets = contents.len().to_be_bytes();
    let zeros = octets.iter().take_while(|octet| **octet == 0).count();
    let length = &octets[zeros.min(octets.len() - 1)..];
    let long = 0x80 | length.len() as u8;
    let front: &[u8] = if contents.len() < 0x80 { &[] } else { &[long] };
    [&[tag], front, length, contents].concat()
}

pub fn sequence(parts: &[Vec<u8>]) -> Vec<u8> {
    tlv(0x30, &parts.concat())
}

/// The INTEGER of a number of so many octets, each of which is this one.
pub fn number(len: usize, octet: u8) -> Vec<u8> {
    let zero: &[u8] = if octet < 0x80 { &[] } else { &[0] };
    tlv(2, &[zero, &vec![octet; len]].concat())
}

pub fn public_key() -> Vec<u8> {
    sequence(&[number(256, 0xc1), tlv(2, &[1, 0, 1])])
}

/// A private key of 2048 bits, with so many primes past the second, no two of which have a number in common.
pub fn private_key(others: usize) -> Vec<u8> {
    let mut parts = vec![tlv(2, &[u8::from(others > 0)]), number(256, 0xc1), tlv(2, &[1, 0, 1])];
    parts.push(number(256, 0xd1));
    parts.extend((0..5).map(|at| number(128, 0x91 + at)));
    if others > 0 {
        let other = |at| sequence(&[3 * at, 3 * at + 1, 3 * at + 2].map(|octet| number(128, 0x70 + octet as u8)));
        parts.push(sequence(&(0..others).map(other).collect::<Vec<_>>()));
    }
    sequence(&parts)
}

/// The container of an RSA key, with these contents of attributes.
pub fn container(key: &[u8], attributes: Option<&[u8]>) -> Vec<u8> {
    let algorithm = sequence(&[tlv(6, &[0x2a, 0x86, 0x48, 0x86, 0xf7, 0x0d, 1, 1, 1]), tlv(5, &[])]);
    let attributes = attributes.map_or(vec![], |contents| tlv(0xa0, contents));
    sequence(&[tlv(2, &[0]), algorithm, tlv(4, key), attributes])
}

/// The parameters of PSS with this identifier of a hash function, and this salt length.
pub fn pss(oid: &[u8], salt_len: u8) -> Vec<u8> {
    let hash = sequence(&[tlv(6, oid), tlv(5, &[])]);
    let mask_gen = sequence(&[tlv(6, &[0x2a, 0x86, 0x48, 0x86, 0xf7, 0x0d, 1, 1, 8]), hash.clone()]);
    sequence(&[tlv(0xa0, &hash), tlv(0xa1, &mask_gen), tlv(0xa2, &tlv(2, &[salt_len]))])
}

pub const SHA_256: &[u8] = &[0x60, 0x86, 0x48, 1, 0x65, 3, 4, 2, 1];
