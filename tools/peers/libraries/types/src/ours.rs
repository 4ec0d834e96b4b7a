//! The types by `sequence!`.
use pkcs1_proved::der::asn1::{AnyRef, BitStringRef, InRange, ObjectIdentifier, OctetStringRef, OpaqueSet};
use pkcs1_proved::{sequence, spki::AlgorithmIdentifier, UintRef};

sequence! {
    pub struct Signature<'a> {
        pub r: UintRef<'a>,
        pub s: UintRef<'a>,
    }
    pub struct DsaParams<'a> {
        pub p: UintRef<'a>,
        pub q: UintRef<'a>,
        pub g: UintRef<'a>,
    }
    pub struct DsaAlgorithm<'a> {
        pub oid: ObjectIdentifier,
        pub parameters: Option<DsaParams<'a>>,
    }
    pub struct EcKey<'a> {
        _: Expected<1>,
        pub private_key: OctetStringRef<'a>,
        pub parameters: [0] explicit Option<ObjectIdentifier>,
        pub public_key: [1] explicit Option<BitStringRef<'a>>,
    }
    pub struct Container<'a> {
        pub version: InRange<0, 1>,
        pub algorithm: AlgorithmIdentifier<AnyRef<'a>>,
        pub private_key: OctetStringRef<'a>,
        pub attributes: [0] implicit Option<OpaqueSet<'a>>,
        pub public_key: [1] implicit Option<BitStringRef<'a>>,
    }
    pub struct Extension<'a> {
        pub id: ObjectIdentifier,
        pub critical: bool = false,
        pub value: OctetStringRef<'a>,
    }
}
