//! The types by the derive of RustCrypto's `der`. It has no version that is fixed or in a range.
use der::asn1::{AnyRef, BitStringRef, ObjectIdentifier, OctetStringRef, SetOfVec, UintRef};
use der::Sequence;

#[derive(Sequence)]
pub struct Signature<'a> {
    pub r: UintRef<'a>,
    pub s: UintRef<'a>,
}
#[derive(Clone, Debug, PartialEq, Eq, Sequence)]
pub struct DsaParams<'a> {
    pub p: UintRef<'a>,
    pub q: UintRef<'a>,
    pub g: UintRef<'a>,
}
#[derive(Sequence)]
pub struct DsaAlgorithm<'a> {
    pub oid: ObjectIdentifier,
    pub parameters: Option<DsaParams<'a>>,
}
#[derive(Sequence)]
pub struct EcKey<'a> {
    pub version: u8,
    pub private_key: OctetStringRef<'a>,
    #[asn1(context_specific = "0", optional = "true", tag_mode = "EXPLICIT")]
    pub parameters: Option<ObjectIdentifier>,
    #[asn1(context_specific = "1", optional = "true", tag_mode = "EXPLICIT")]
    pub public_key: Option<BitStringRef<'a>>,
}
#[derive(Sequence)]
pub struct Container<'a> {
    pub version: u8,
    pub algorithm: spki::AlgorithmIdentifierRef<'a>,
    pub private_key: OctetStringRef<'a>,
    #[asn1(context_specific = "0", optional = "true", tag_mode = "IMPLICIT")]
    pub attributes: Option<SetOfVec<AnyRef<'a>>>,
    #[asn1(context_specific = "1", optional = "true", tag_mode = "IMPLICIT")]
    pub public_key: Option<BitStringRef<'a>>,
}
#[derive(Sequence)]
pub struct Extension<'a> {
    pub id: ObjectIdentifier,
    #[asn1(default = "Default::default")]
    pub critical: bool,
    pub value: OctetStringRef<'a>,
}
