//! The crate asn1, known as rust-asn1: the grammars of RFC 8017, as its documentation derives them. Versions, the
//! trailer field and identifiers are compared here.
use super::*;
use asn1::{parse_single, write_single, Asn1Read, Asn1Writable, Asn1Write, BigUint, ObjectIdentifier, SequenceOf, Tlv};

#[derive(Asn1Read, Asn1Write)]
pub struct RsaPublicKey<'a> {
    modulus: BigUint<'a>,
    public_exponent: BigUint<'a>,
}
#[derive(Asn1Read, Asn1Write, Clone, Debug, Hash, PartialEq, Eq)]
pub struct OtherPrime<'a> {
    prime: BigUint<'a>,
    exponent: BigUint<'a>,
    coefficient: BigUint<'a>,
}
#[derive(Asn1Read, Asn1Write)]
pub struct RsaPrivateKey<'a> {
    version: u8,
    modulus: BigUint<'a>,
    public_exponent: BigUint<'a>,
    private_exponent: BigUint<'a>,
    prime1: BigUint<'a>,
    prime2: BigUint<'a>,
    exponent1: BigUint<'a>,
    exponent2: BigUint<'a>,
    coefficient: BigUint<'a>,
    others: Option<SequenceOf<'a, OtherPrime<'a>>>,
}
#[derive(Asn1Read, Asn1Write, Clone, PartialEq, Eq)]
pub struct Algorithm<'a> {
    oid: ObjectIdentifier,
    parameters: Option<Tlv<'a>>,
}
#[derive(Asn1Read, Asn1Write, Clone, PartialEq, Eq)]
pub struct MaskGen<'a> {
    oid: ObjectIdentifier,
    hash: Option<Algorithm<'a>>,
}
#[derive(Asn1Read, Asn1Write)]
pub struct PssParams<'a> {
    #[explicit(0)]
    #[default(sha1())]
    hash: Algorithm<'a>,
    #[explicit(1)]
    #[default(mgf1())]
    mask_gen: MaskGen<'a>,
    #[explicit(2)]
    #[default(20u64)]
    salt_len: u64,
    #[explicit(3)]
    #[default(1u8)]
    trailer_field: u8,
}
#[derive(Asn1Read, Asn1Write)]
pub struct OaepParams<'a> {
    #[explicit(0)]
    #[default(sha1())]
    hash: Algorithm<'a>,
    #[explicit(1)]
    #[default(mgf1())]
    mask_gen: MaskGen<'a>,
    #[explicit(2)]
    #[default(no_label())]
    p_source: Algorithm<'a>,
}
#[derive(Asn1Read, Asn1Write)]
pub struct InAlgorithm<'a> {
    oid: ObjectIdentifier,
    parameters: Tlv<'a>,
}
#[derive(Asn1Read, Asn1Write)]
pub struct PrivateKeyInfo<'a> {
    version: u8,
    algorithm: Algorithm<'a>,
    private_key: &'a [u8],
    #[implicit(0)]
    attributes: Option<SequenceOf<'a, Tlv<'a>>>,
}

const RSA: ObjectIdentifier = asn1::oid!(1, 2, 840, 113549, 1, 1, 1);
const OAEP: ObjectIdentifier = asn1::oid!(1, 2, 840, 113549, 1, 1, 7);
const PSS: ObjectIdentifier = asn1::oid!(1, 2, 840, 113549, 1, 1, 10);

fn algorithm(oid: ObjectIdentifier, parameters: &'static [u8]) -> Algorithm<'static> {
    Algorithm { oid, parameters: parse_single(parameters).ok() }
}
fn sha1() -> Algorithm<'static> {
    algorithm(asn1::oid!(1, 3, 14, 3, 2, 26), b"\x05\x00")
}
fn mgf1() -> MaskGen<'static> {
    MaskGen { oid: asn1::oid!(1, 2, 840, 113549, 1, 1, 8), hash: Some(sha1()) }
}
fn no_label() -> Algorithm<'static> {
    algorithm(asn1::oid!(1, 2, 840, 113549, 1, 1, 9), b"\x04\x00")
}

fn read_private_key(der: &[u8]) -> Option<RsaPrivateKey<'_>> {
    let key: RsaPrivateKey = parse_single(der).ok()?;
    let version = key.others.as_ref().map_or(0, |it| if it.is_empty() { 2 } else { 1 });
    Some(key).filter(|it| it.version == version)
}
fn read_pss(der: &[u8]) -> Option<PssParams<'_>> {
    parse_single::<PssParams>(der).ok().filter(|it| it.trailer_field == 1)
}
fn parameters(der: &[u8], oid: ObjectIdentifier) -> Option<&[u8]> {
    let whole: InAlgorithm = parse_single(der).ok()?;
    Some(whole.parameters.full_data()).filter(|_| whole.oid == oid)
}
fn read_container(der: &[u8]) -> Option<(PrivateKeyInfo<'_>, RsaPrivateKey<'_>)> {
    let info: PrivateKeyInfo = parse_single(der).ok()?;
    let is_rsa = info.version == 0 && info.algorithm == algorithm(RSA, b"\x05\x00");
    let key = read_private_key(info.private_key)?;
    Some((info, key)).filter(|_| is_rsa)
}
fn put<T: Asn1Writable>(value: &T, to: &mut [u8]) -> Option<usize> {
    let made = write_single(value).ok()?;
    to.get_mut(..made.len())?.copy_from_slice(&made);
    Some(made.len())
}
fn put_algorithm<T: Asn1Writable>(oid: ObjectIdentifier, value: &T, to: &mut [u8]) -> Option<usize> {
    let parameters = write_single(value).ok()?;
    put(&InAlgorithm { oid, parameters: parse_single(&parameters).ok()? }, to)
}

reads_and_writes!(PublicKey, RsaPublicKey<'a>, |b| parse_single(b).ok(), put);
reads_and_writes!(PrivateKey, RsaPrivateKey<'a>, read_private_key, put);
reads_and_writes!(Pss, PssParams<'a>, read_pss, put);
reads_and_writes!(PssAlgorithm, PssParams<'a>, |b| read_pss(parameters(b, PSS)?), |it: &_, to| put_algorithm(PSS, it, to));
reads_and_writes!(Oaep, OaepParams<'a>, |b| parse_single(b).ok(), put);
reads_and_writes!(OaepAlgorithm, OaepParams<'a>, |b| parse_single(parameters(b, OAEP)?).ok(), |it: &_, to| put_algorithm(
    OAEP, it, to
));
reads_and_writes!(Container, (PrivateKeyInfo<'a>, RsaPrivateKey<'a>), read_container, |it: &(PrivateKeyInfo<'_>, _), to| put(
    &it.0, to
));

library!(
    rust_asn1,
    c"rust-asn1",
    1,
    [PublicKey, PrivateKey, PrivateKey, Pss, PssAlgorithm, Oaep, OaepAlgorithm, Container]
);
