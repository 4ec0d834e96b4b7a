//! The types by the derive of the crate `asn1`, known as rust-asn1. It has no version that is fixed or in a range.
use asn1::{Asn1Read, Asn1Write, BigUint, BitString, ObjectIdentifier, SetOf, Tlv};

#[derive(Asn1Read, Asn1Write)]
pub struct Signature<'a> {
    pub r: BigUint<'a>,
    pub s: BigUint<'a>,
}
#[derive(Asn1Read, Asn1Write)]
pub struct DsaParams<'a> {
    pub p: BigUint<'a>,
    pub q: BigUint<'a>,
    pub g: BigUint<'a>,
}
#[derive(Asn1Read, Asn1Write)]
pub struct DsaAlgorithm<'a> {
    pub oid: ObjectIdentifier,
    pub parameters: Option<DsaParams<'a>>,
}
#[derive(Asn1Read, Asn1Write)]
pub struct EcKey<'a> {
    pub version: u8,
    pub private_key: &'a [u8],
    #[explicit(0)]
    pub parameters: Option<ObjectIdentifier>,
    #[explicit(1)]
    pub public_key: Option<BitString<'a>>,
}
#[derive(Asn1Read, Asn1Write)]
pub struct Algorithm<'a> {
    pub oid: ObjectIdentifier,
    pub parameters: Option<Tlv<'a>>,
}
#[derive(Asn1Read, Asn1Write)]
pub struct Container<'a> {
    pub version: u8,
    pub algorithm: Algorithm<'a>,
    pub private_key: &'a [u8],
    #[implicit(0)]
    pub attributes: Option<SetOf<'a, Tlv<'a>>>,
    #[implicit(1)]
    pub public_key: Option<BitString<'a>>,
}
#[derive(Asn1Read, Asn1Write)]
pub struct Extension<'a> {
    pub id: ObjectIdentifier,
    #[default(false)]
    pub critical: bool,
    pub value: &'a [u8],
}
