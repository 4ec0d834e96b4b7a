//! The worked rows, which all of the libraries share. An input that is refused gives the error that its row says. One
//! that is accepted is written again as its row says, and what is borrowed lies in the input.
#![cfg(feature = "alloc")]
#![allow(clippy::needless_question_mark)] // which is of one of both types of errors

use pkcs1_proved::der::asn1::{AnyRef, ObjectIdentifierRef};
use pkcs1_proved::der::{Decode, Encode};
use pkcs1_proved::pkcs8::PrivateKeyInfoRef;
use pkcs1_proved::spki::AlgorithmIdentifier;
use pkcs1_proved::{
    Error, RsaOaepParamsOwned, RsaOaepParamsRef, RsaOaepParamsView, RsaPrivateKeyOwned, RsaPrivateKeyRef,
    RsaPrivateKeyView, RsaPssParamsOwned, RsaPssParamsRef, RsaPssParamsView, RsaPublicKeyOwned, RsaPublicKeyRef,
};

type Written = Result<Vec<u8>, Error>;
/// What is written again, or the text of the error's kind.
type Outcome = Result<Vec<u8>, String>;

const KINDS: &str = "pub priv info pss pss-strict pss-algorithm pss-algorithm-strict \
                     oaep oaep-strict oaep-algorithm oaep-algorithm-strict";

/// Each row whose word is a kind: it, the DER and the outcome. Of a container that is accepted, a row may say that its
/// key is refused.
fn rows() -> Vec<(&'static str, Vec<u8>, Outcome)> {
    let path = concat!(env!("CARGO_MANIFEST_DIR"), "/../crates/pkcs1_vectors/stdin");
    let table = std::fs::read_to_string(path).unwrap();
    let rows = table.lines().filter_map(|line| {
        let (asked, answer) = line.split_once(" = ")?;
        let (word, digits) = asked.split_once(' ')?;
        let kind = KINDS.split(' ').find(|kind| *kind == word)?;
        let outcome = match answer.split_once("refused: ") {
            Some((_, text)) => Err(text.to_string()),
            None => Ok(octets(answer.split_once(" again=").map_or(digits, |(_, again)| again))),
        };
        Some((kind, octets(digits), outcome))
    });
    rows.collect()
}

fn octets(digits: &str) -> Vec<u8> {
    let digits = digits.trim_start_matches('-');
    (0..digits.len()).step_by(2).map(|at| u8::from_str_radix(&digits[at..at + 2], 16).unwrap()).collect()
}

/// The outcome as a row has it. The printed error ends with the text of its kind.
fn outcome_of(written: &Written) -> Outcome {
    written.clone().map_err(|error| {
        let Error::Asn1(inner) = error else { panic!("{error}") };
        let text = inner.kind().to_string();
        assert_eq!(error.to_string(), format!("PKCS#1 ASN.1 error: {text}"));
        text
    })
}

/// What is written of what is read, by each of the types that read this kind.
fn ways(kind: &str, der: &[u8]) -> Vec<Written> {
    macro_rules! each {
        ($($read:expr => $write:ident;)*) => { vec![$($read.map_err(Error::from).and_then(|it| Ok(it.$write()?))),*] };
    }
    match kind {
        "pub" => each! {
            RsaPublicKeyRef::from_der(der) => to_der; RsaPublicKeyRef::try_from(der) => to_der;
            RsaPublicKeyOwned::from_der(der) => to_der;
        },
        "priv" => each! {
            RsaPrivateKeyRef::try_from(der) => to_der; RsaPrivateKeyOwned::from_der(der) => to_der;
            RsaPrivateKeyView::from_der(der).and_then(|view| RsaPrivateKeyRef::from_der(view.as_bytes())) => to_der;
        },
        "info" => {
            let read = PrivateKeyInfoRef::try_from(der);
            each! {
                read.and_then(|info| info.rsa_view().and(Ok(info))) => to_der;
                RsaPrivateKeyRef::from_pkcs8_der(der).and(read) => to_der;
                RsaPrivateKeyOwned::from_pkcs8_der(der).and(read) => to_der;
            }
        }
        "pss" => each! {
            RsaPssParamsRef::try_from(der) => to_der;
            RsaPssParamsOwned::try_from(der) => to_der;
            RsaPssParamsView::from_der(der) => to_der;
        },
        "oaep" => each! {
            RsaOaepParamsRef::try_from(der) => to_der;
            RsaOaepParamsOwned::try_from(der) => to_der;
            RsaOaepParamsView::from_der(der) => to_der;
        },
        "pss-strict" => each! {
            RsaPssParamsRef::from_der_strict(der) => to_der; RsaPssParamsView::from_der_strict(der) => to_der;
        },
        "oaep-strict" => each! {
            RsaOaepParamsRef::from_der_strict(der) => to_der; RsaOaepParamsView::from_der_strict(der) => to_der;
        },
        "pss-algorithm" => each! { RsaPssParamsRef::from_algorithm_der(der) => to_algorithm_der; },
        "oaep-algorithm" => each! { RsaOaepParamsView::from_algorithm_der(der) => to_algorithm_der; },
        "pss-algorithm-strict" => each! { RsaPssParamsView::from_algorithm_der_strict(der) => to_algorithm_der; },
        "oaep-algorithm-strict" => each! { RsaOaepParamsRef::from_algorithm_der_strict(der) => to_algorithm_der; },
        _ => panic!("{kind} is no kind"),
    }
}

/// The same of parameters that are read from an `AnyRef`, which sees other faults first.
fn by_any(kind: &str, der: &[u8]) -> Option<Written> {
    let algorithm = || Ok::<_, Error>(AlgorithmIdentifier::from_der(der)?);
    let any = || Ok::<_, Error>(AnyRef::from_der(der)?);
    Some(match kind {
        "pss" => any().and_then(|it| Ok(it.decode_as::<RsaPssParamsRef<'_>>()?.to_der()?)),
        "oaep" => any().and_then(|it| Ok(it.decode_as::<RsaOaepParamsView<'_>>()?.to_der()?)),
        "pss-algorithm" => algorithm().and_then(|it| RsaPssParamsView::from_algorithm(&it)?.to_algorithm_der()),
        "oaep-algorithm" => algorithm().and_then(|it| RsaOaepParamsRef::from_algorithm(&it)?.to_algorithm_der()),
        _ => return None,
    })
}

#[test]
fn each_input_has_its_outcome_by_each_type() {
    let rows = rows();
    for (kind, der, outcome) in &rows {
        let ways = ways(kind, der);
        for written in &ways {
            assert_eq!(outcome_of(written), *outcome, "{kind} {der:x?}");
            assert_eq!(written, &ways[0], "{kind} {der:x?}");
        }
        if let Some(written) = by_any(kind, der) {
            assert_eq!(written.is_err(), ways[0].is_err(), "{kind} {der:x?}");
            assert_eq!(written.ok(), ways[0].clone().ok(), "{kind} {der:x?}");
        }
    }
    assert!(rows.len() > 350);
}

fn lies_in(input: &[u8], slice: &[u8]) -> bool {
    let (input, slice) = (input.as_ptr_range(), slice.as_ptr_range());
    input.start <= slice.start && slice.end <= input.end
}

type ViewedHash<'a> = AlgorithmIdentifier<AnyRef<'a>, ObjectIdentifierRef<'a>>;

/// The octets of an algorithm that is read.
fn of_algorithm<'a>(algorithm: &ViewedHash<'a>) -> Vec<&'a [u8]> {
    [algorithm.oid.as_bytes()].into_iter().chain(algorithm.parameters.map(|any| any.value())).collect()
}

/// What a value borrows, for the kinds whose fields are all written.
fn borrowed<'a>(kind: &str, der: &'a [u8]) -> Vec<&'a [u8]> {
    match kind {
        "pub" => {
            let key = RsaPublicKeyRef::try_from(der).unwrap();
            vec![key.modulus.as_bytes(), key.public_exponent.as_bytes()]
        }
        "priv" => {
            let key = RsaPrivateKeyRef::try_from(der).unwrap();
            let others =
                key.other_prime_infos.iter().flat_map(|others| others.iter()).map(|other| other.coefficient.as_bytes());
            [key.modulus.as_bytes(), key.private_exponent.as_bytes(), key.prime1.as_bytes()]
                .into_iter()
                .chain([key.prime2, key.exponent1, key.exponent2, key.coefficient].map(|it| it.as_bytes()))
                .chain(others)
                .collect()
        }
        "info" => {
            let info = PrivateKeyInfoRef::try_from(der).unwrap();
            info.attributes.into_iter().chain([info.private_key.as_bytes()]).collect()
        }
        _ => vec![],
    }
}

#[test]
fn what_is_borrowed_lies_in_the_input() {
    let mut count = 0;
    for (kind, der, _) in rows().iter().filter(|(.., outcome)| outcome.is_ok()) {
        for slice in borrowed(kind, der) {
            assert!(lies_in(der, slice), "{kind} {der:x?}");
            count += 1;
        }
    }
    let der = pkcs1_proved::RsaPssParamsRef::new::<pkcs1_proved::Sha256>(32).to_der().unwrap();
    let view = RsaPssParamsView::try_from(&der[..]).unwrap();
    let slices = [of_algorithm(&view.hash), of_algorithm(&view.mask_gen.parameters.unwrap())].concat();
    assert!(slices.iter().chain([&view.mask_gen.oid.as_bytes()]).all(|slice| lies_in(&der, slice)));
    assert!(count > 40);
}
