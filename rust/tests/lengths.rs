//! Every boundary of a length: contents of as many octets as a form of the length holds at most, and of one more, at each
//! level of an encoding. The shortest form is read, and written again as the same octets. Each longer form is refused.

mod made;

use made::tlv;
use pkcs1_proved::der::{Decode, Encode, ErrorKind, asn1::AnyRef};
use pkcs1_proved::pkcs8::PrivateKeyInfoRef;
use pkcs1_proved::{
    Result, RsaOaepParamsRef, RsaOaepParamsView, RsaPrivateKeyRef, RsaPrivateKeyView, RsaPssParamsRef,
    RsaPssParamsView, RsaPublicKeyRef,
};

/// The boundaries, and lengths whose octets differ from each other. Those from `FEW` on are tried of a public key alone.
const LENGTHS: [usize; 11] =
    [0x7f, 0x80, 0xff, 0x100, 0x102, 0xffff, 0x1_0000, 0x1_0203, 0xff_ffff, 0x100_0000, 0x102_0304];
const FEW: usize = 8;

/// Puts headers in front of contents, from the innermost on.
struct Headers {
    /// At this level, from 0 on, the length has so many octets behind its first. At the others it is shortest.
    form: Option<(usize, usize)>,
    /// How many octets the contents have at each level.
    contents: Vec<usize>,
}

impl Headers {
    fn put(&mut self, tag: u8, contents: &[u8]) -> Vec<u8> {
        let level = self.contents.len();
        self.contents.push(contents.len());
        match self.form {
            Some((at, more)) if at == level && more > 0 => {
                let octets = (contents.len() as u64).to_be_bytes();
                [&[tag, 0x80 | more as u8], &octets[octets.len() - more..], contents].concat()
            }
            _ => tlv(tag, contents),
        }
    }

    /// The same of these parts.
    fn around(&mut self, tag: u8, parts: &[&[u8]]) -> Vec<u8> {
        self.put(tag, &parts.concat())
    }
}

/// Six numbers.
const ONES: [u8; 18] = [2, 1, 1, 2, 1, 1, 2, 1, 1, 2, 1, 1, 2, 1, 1, 2, 1, 1];
const RSA_ENCRYPTION: [u8; 15] = [0x30, 13, 6, 9, 0x2a, 0x86, 0x48, 0x86, 0xf7, 0x0d, 1, 1, 1, 5, 0];

/// The identifier with this last part, of PKCS #1.
fn identifier(last: u8) -> Vec<u8> {
    tlv(6, &[0x2a, 0x86, 0x48, 0x86, 0xf7, 0x0d, 1, 1, last])
}

/// An encoding around a number, or around octets that aren't looked at.
type Shape = fn(&mut Headers, &[u8]) -> Vec<u8>;

fn opaque(to: &mut Headers, filling: &[u8]) -> Vec<u8> {
    to.put(4, filling)
}

fn public_key(to: &mut Headers, filling: &[u8]) -> Vec<u8> {
    let modulus = to.put(2, filling);
    to.around(0x30, &[&modulus, &[2, 1, 3]])
}

/// The number begins with 128, so that a zero stands in front of it.
fn signed(to: &mut Headers, filling: &[u8]) -> Vec<u8> {
    let exponent = to.around(2, &[&[0, 0x80], filling]);
    to.around(0x30, &[&[2, 1, 1], &exponent])
}

fn private_key(to: &mut Headers, filling: &[u8]) -> Vec<u8> {
    let coefficient = to.put(2, filling);
    to.around(0x30, &[&[2, 1, 0], &ONES, &[2, 1, 1], &coefficient])
}

fn three_primes(to: &mut Headers, filling: &[u8]) -> Vec<u8> {
    let exponent = to.put(2, filling);
    let prime = to.around(0x30, &[&[2, 1, 1], &exponent, &[2, 1, 1]]);
    let primes = to.put(0x30, &prime);
    to.around(0x30, &[&[2, 1, 1], &ONES, &[2, 1, 1, 2, 1, 1], &primes])
}

fn container(to: &mut Headers, filling: &[u8]) -> Vec<u8> {
    let key = private_key(to, filling);
    let key = to.put(4, &key);
    to.around(0x30, &[&[2, 1, 0], &RSA_ENCRYPTION, &key])
}

fn attributes(to: &mut Headers, filling: &[u8]) -> Vec<u8> {
    let attributes = to.put(0xa0, filling);
    to.around(0x30, &[&[2, 1, 0], &RSA_ENCRYPTION, &[4, 0], &attributes])
}

/// An algorithm whose parameters are opaque octets, in a field of parameters.
fn field(to: &mut Headers, tag: u8, identifier: &[u8], filling: &[u8]) -> Vec<u8> {
    let parameters = to.put(4, filling);
    let algorithm = to.around(0x30, &[identifier, &parameters]);
    let field = to.put(tag, &algorithm);
    to.put(0x30, &field)
}

fn pss(to: &mut Headers, filling: &[u8]) -> Vec<u8> {
    field(to, 0xa0, &tlv(6, made::SHA_256), filling)
}

fn oaep(to: &mut Headers, filling: &[u8]) -> Vec<u8> {
    field(to, 0xa2, &identifier(9), filling)
}

fn pss_algorithm(to: &mut Headers, filling: &[u8]) -> Vec<u8> {
    let parameters = pss(to, filling);
    to.around(0x30, &[&identifier(10), &parameters])
}

/// What was read is written as it was.
fn again(value: impl Encode, der: &[u8]) -> Result<()> {
    let mut room = vec![0; der.len()];
    let is_same = value.encode_to_slice(&mut room)? == der;
    assert!(is_same, "what begins with {:02x?} is written otherwise", &der[..der.len().min(16)]);
    assert_eq!(value.encode_to_slice(&mut room[1..]).unwrap_err().kind(), ErrorKind::NoRoom);
    Ok(())
}

/// Reads one and, if it can be written, writes it again.
type Call = fn(&[u8]) -> Result<()>;

const CASES: &[(&str, Shape, Call)] = &[
    ("public key", public_key, |der| again(RsaPublicKeyRef::from_der(der)?, der)),
    ("number with a sign octet", signed, |der| again(RsaPublicKeyRef::from_der(der)?, der)),
    ("private key", private_key, |der| again(RsaPrivateKeyRef::from_der(der)?, der)),
    #[cfg(feature = "alloc")]
    ("three primes", three_primes, |der| again(RsaPrivateKeyRef::from_der(der)?, der)),
    ("three primes, viewed", three_primes, |der| RsaPrivateKeyView::try_from(der).map(drop)),
    ("key in a container", container, |der| {
        let info = PrivateKeyInfoRef::from_der(der)?;
        info.rsa_view()?;
        again(info, der)
    }),
    ("attributes", attributes, |der| again(PrivateKeyInfoRef::from_der(der)?, der)),
    ("PSS", pss, |der| again(RsaPssParamsRef::from_der(der)?, der)),
    ("PSS, strictly", pss, |der| RsaPssParamsView::from_der_strict(der).map(drop)),
    ("PSS in an algorithm", pss_algorithm, |der| RsaPssParamsRef::from_algorithm_der(der).map(drop)),
    ("OAEP", oaep, |der| again(RsaOaepParamsRef::from_der(der)?, der)),
    ("OAEP, strictly", oaep, |der| RsaOaepParamsView::from_der_strict(der).map(drop)),
    ("any tag", opaque, |der| again(AnyRef::from_der(der)?, der)),
];

/// The encoding with so many octets for the filling, and how many the contents have at each level.
fn make(shape: Shape, filling: usize, form: Option<(usize, usize)>) -> (Vec<u8>, Vec<usize>) {
    let mut headers = Headers { form, contents: vec![] };
    let der = shape(&mut headers, &vec![1; filling]);
    (der, headers.contents)
}

/// The filling with which the contents have so many octets at this level, if there is one.
fn filling(shape: Shape, level: usize, length: usize) -> Option<usize> {
    let mut filling = length;
    for _ in 0..4 {
        let found = make(shape, filling, None).1[level];
        if found == length {
            return Some(filling);
        }
        filling = (filling + length).checked_sub(found)?;
    }
    None
}

/// How many octets the shortest form of a length has behind its first.
fn shortest(length: usize) -> usize {
    if length < 0x80 { 0 } else { (length.ilog2() / 8 + 1) as usize }
}

/// Tries each form of this length at this level, from the shortest on. Whether the contents can have it there.
fn try_forms(name: &str, shape: Shape, call: Call, level: usize, length: usize) -> bool {
    let Some(filling) = filling(shape, level, length) else { return false };
    for more in shortest(length)..=5 {
        let (der, _) = make(shape, filling, Some((level, more)));
        let want = match more {
            _ if more == shortest(length) => None,
            5 => Some(ErrorKind::Overflow),
            _ => Some(ErrorKind::Overlength),
        };
        let read = call(&der);
        let got = if read.is_ok() { None } else { Some(made::kind(read)) };
        assert_eq!(got, want, "{name}: {length} octets at level {level}, {more} octets of the length");
    }
    true
}

#[test]
fn each_form_of_each_length_is_read_or_refused() {
    let mut tried = 0;
    for (index, (name, shape, call)) in CASES.iter().enumerate() {
        let lengths = if index == 0 { &LENGTHS[..] } else { &LENGTHS[..FEW] };
        for level in 0..make(*shape, 1, None).1.len() {
            for length in lengths {
                tried += usize::from(try_forms(name, *shape, *call, level, *length));
            }
        }
    }
    assert_eq!(tried, if cfg!(feature = "alloc") { 342 } else { 310 });
}
