//! Records of the proved crates by `sequence!`: tools/erase/expanded.py compares what it makes of them with the text that
//! is proved there.
#![cfg(feature = "alloc")]
use pkcs1_proved::der::asn1::{BitString, InRange, ObjectIdentifier};
use pkcs1_proved::{kernel::Containing, sequence};

sequence! {
    pub struct DssSigValue<U> { pub r: U, pub s: U }

    pub struct DsaParams<U> { pub p: U, pub q: U, pub g: U }

    pub struct DigestInfo<A, D> { pub algorithm: A, pub digest: D }

    pub struct OptionalSalt<U, S> { pub iterations: U, pub salt: Option<S> }

    pub struct NumberList<U> { pub version: InRange<0, 1>, pub numbers: Vec<U> }

    pub struct Extension<V> { pub id: ObjectIdentifier, pub critical: bool = false, pub value: V }

    pub struct RsaPublicKey<U> { pub modulus: U, pub public_exponent: U }

    pub struct OtherPrimeInfo<U> { pub prime: U, pub exponent: U, pub coefficient: U }

    pub struct SubjectPublicKeyInfo<A, K> { pub algorithm: A, pub key: BitString<Containing<K>> }
}
