//! Types of one's own: by `sequence!`, and by the derives of `der` and rust-asn1.
//!
//!     types count CALL LIBRARY N     calls N times, for callgrind: a CALL is read-TYPE or write-TYPE
//!     types beside SEED SECONDS      reads encodings by chance by all three, and prints where they differ
mod derived;
mod ours;
mod rust_asn1;
mod trees;

use pkcs1_proved::der::{Decode, Encode};
use std::collections::BTreeMap;
use std::hint::black_box;
use trees::{leaf, node, value, Chance, Tree};

/// Does this so often, and keeps what it gives.
fn times<T>(count: u64, mut call: impl FnMut() -> T) {
    for _ in 0..count {
        black_box(call());
    }
}

/// Reads the type so often by a library, or writes what it read.
macro_rules! count {
    ($call:expr, $library:expr, $type:ident, $der:expr, $count:expr) => {{
        let (der, mut room) = (&$der[..], [0; 1024]);
        match ($call, $library) {
            ("read", "sequence!") => times($count, || ours::$type::from_der(black_box(der))),
            ("read", "der") => times($count, || <derived::$type<'_> as der::Decode>::from_der(black_box(der))),
            ("read", "rust-asn1") => times($count, || asn1::parse_single::<rust_asn1::$type<'_>>(black_box(der))),
            ("write", "sequence!") => {
                let it = ours::$type::from_der(der).unwrap();
                times($count, || black_box(&it).encode_to_slice(black_box(&mut room)).is_ok());
            }
            ("write", "der") => {
                let it = <derived::$type<'_> as der::Decode>::from_der(der).unwrap();
                times($count, || der::Encode::encode_to_slice(black_box(&it), black_box(&mut room)).is_ok());
            }
            ("write", "rust-asn1") => {
                let it = asn1::parse_single::<rust_asn1::$type<'_>>(der).unwrap();
                times($count, || asn1::write_single(black_box(&it)));
            }
            _ => times($count, || black_box(der).len()),
        }
    }};
}

fn number(octets: usize) -> Tree {
    leaf(2, [&[0x61][..], &vec![0x5a; octets - 1]].concat())
}
fn oid(octets: &[u8]) -> Tree {
    leaf(6, octets.to_vec())
}
/// The encoding that is counted: a signature of 256 bits, a DSA key of 2048, a P-256 key, an Ed25519 key.
fn counted(name: &str) -> Vec<u8> {
    let bits = |tag, octets: usize| leaf(tag, [&[0][..], &vec![9; octets]].concat());
    let tree = match name {
        "Signature" => node(0x30, vec![number(32), number(32)]),
        "DsaAlgorithm" => node(
            0x30,
            vec![oid(&[0x2a, 0x86, 0x48, 0xce, 0x38, 4, 1]), node(0x30, vec![number(256), number(32), number(256)])],
        ),
        "EcKey" => node(
            0x30,
            vec![
                leaf(2, vec![1]),
                leaf(4, vec![7; 32]),
                node(0xa0, vec![oid(&[0x2a, 0x86, 0x48, 0xce, 0x3d, 3, 1, 7])]),
                node(0xa1, vec![bits(3, 65)]),
            ],
        ),
        _ => node(
            0x30,
            vec![
                leaf(2, vec![1]),
                node(0x30, vec![oid(&[0x2b, 0x65, 0x70])]),
                leaf(4, [&[4, 32][..], &[7; 32]].concat()),
                bits(0x81, 32),
            ],
        ),
    };
    tree.encoding(&mut Chance(1), 0)
}

fn count(call: &str, library: &str, number: u64) {
    let (call, name) = call.split_once('-').unwrap();
    let der = counted(name);
    match name {
        "Signature" => count!(call, library, Signature, der, number),
        "DsaAlgorithm" => count!(call, library, DsaAlgorithm, der, number),
        "EcKey" => count!(call, library, EcKey, der, number),
        _ => count!(call, library, Container, der, number),
    }
}

/// What the three say of an encoding: each refuses it by an error, or accepts it, and may then write another.
macro_rules! beside {
    ($type:ident, $der:expr) => {{
        let (der, mut room, mut other_room) = (&$der[..], [0; 4096], [0; 4096]);
        let ours = ours::$type::from_der(der);
        let derived = <derived::$type<'_> as der::Decode>::from_der(der);
        let other = asn1::parse_single::<rust_asn1::$type<'_>>(der);
        if let Ok(it) = &ours {
            assert_eq!(it.encoded_len().unwrap().to_usize(), der.len());
            assert_eq!(it.to_der().unwrap(), der, "what sequence! reads, it writes again");
        }
        [
            said(ours.map(|it| it.encode_to_slice(&mut room).unwrap() == der).map_err(|it| it.kind())),
            said(
                derived
                    .map(|it| der::Encode::encode_to_slice(&it, &mut other_room).is_ok_and(|it| it == der))
                    .map_err(|it| it.kind()),
            ),
            said(other.map(|it| asn1::write_single(&it).is_ok_and(|it| it == der)).map_err(|it| it.kind())),
        ]
    }};
}

fn said<E: std::fmt::Debug>(answer: Result<bool, E>) -> String {
    match answer {
        Ok(true) => "accepts".into(),
        Ok(false) => "accepts, and writes another".into(),
        Err(kind) => format!("{kind:?}").split(|it: char| !it.is_alphanumeric()).next().unwrap().into(),
    }
}

fn processor_seconds() -> f64 {
    let text = std::fs::read_to_string("/proc/self/stat").unwrap();
    let fields: Vec<&str> = text.rsplit(')').next().unwrap().split_whitespace().collect();
    (fields[11].parse::<f64>().unwrap() + fields[12].parse::<f64>().unwrap()) / 100.0
}

fn beside(seed: u64, seconds: f64) {
    let names = ["Signature", "DsaAlgorithm", "EcKey", "Container", "Extension"];
    let (mut chance, mut all, mut accepted, mut found) = (Chance(seed | 1), 0_u64, 0_u64, BTreeMap::new());
    while processor_seconds() < seconds {
        for _ in 0..2000 {
            let of = chance.below(names.len());
            let tree = value(of, &mut chance);
            let often = [0, 30, 100, 300][chance.below(4)];
            let der = tree.encoding(&mut chance, often);
            let said = match of {
                0 => beside!(Signature, der),
                1 => beside!(DsaAlgorithm, der),
                2 => beside!(EcKey, der),
                3 => beside!(Container, der),
                _ => beside!(Extension, der),
            };
            all += 1;
            let accepts = said.iter().filter(|it| it.starts_with("accepts")).count();
            accepted += u64::from(said[0] == "accepts");
            if accepts == 0 || accepts == 3 && said.iter().all(|it| it == "accepts") {
                continue;
            }
            let entry = found.entry((names[of], said)).or_insert_with(|| (0_u64, der.clone()));
            entry.0 += 1;
            if der.len() < entry.1.len() {
                entry.1 = der;
            }
        }
    }
    println!("{all} encodings, seed {seed}: sequence! accepts {accepted}, and writes each again");
    for ((name, [ours, derived, other]), (count, der)) in found {
        let digits: String = der.iter().map(|it| format!("{it:02x}")).collect();
        println!("{count:>9} {name}: sequence! {ours}; der {derived}; rust-asn1 {other}: {digits}");
    }
}

fn main() {
    let words: Vec<String> = std::env::args().collect();
    match words.iter().map(String::as_str).collect::<Vec<_>>()[1..] {
        ["count", call, library, number] => count(call, library, number.parse().unwrap()),
        ["beside", seed, seconds] => beside(seed.parse().unwrap(), seconds.parse().unwrap()),
        _ => panic!("types count CALL LIBRARY N, or types beside SEED SECONDS"),
    }
}
