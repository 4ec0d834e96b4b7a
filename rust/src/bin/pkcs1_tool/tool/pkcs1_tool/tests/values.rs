// Made of crates/pkcs1_tool/src/tests/values.rt by tools/erase/erase.py, and not to be edited.
//! Errors that are compared, values that are printed, and long values that are copied.
use crate::rattle_std::prelude::{HostRuntime, String, Vec, format, vec};
use crate::tool::pkcs1_tool::tests::checks::{equal, holds};
use crate::proved::der_core::{Document, Error, ErrorKind, SecretDocument, Tag, Uint};
use crate::proved::pkcs1::hash_functions::Sha256;
use crate::proved::pkcs1::{RsaOaepParamsRef, RsaPssParamsRef};
use crate::proved::spki_core::{Any, AnyRef, AnyValue};
use crate::rattle_std::alloc::Global;
use crate::rattle_std::fmt::Debug;
use crate::rattle_std::process::Abort;
use crate::rattle_std::test::Fail;

/// Asserts that each value is equal to itself and to no other.
fn all_differ<T: PartialEq>(rt: &impl Abort, all: &[T]) {
    for (place, one) in all.iter().enumerate() {
        for (other_place, other) in all.iter().enumerate() {
            holds(rt, (one == other) == (place == other_place));
            holds(rt, (one != other) == (place != other_place));
        }
    }
}

/// Each kind of error, with two different tags or octets where it has them.
fn kinds(tag: Tag, other: Tag) -> [ErrorKind; 24] {
    [
        ErrorKind::Failed,
        ErrorKind::Incomplete,
        ErrorKind::IndefiniteLength,
        ErrorKind::Length { tag },
        ErrorKind::Length { tag: other },
        ErrorKind::Noncanonical { tag },
        ErrorKind::Noncanonical { tag: other },
        ErrorKind::OidMalformed,
        ErrorKind::OidUnknown,
        ErrorKind::Overflow,
        ErrorKind::Overlength,
        ErrorKind::ParametersMissing,
        unexpected(tag, tag),
        unexpected(tag, other),
        unexpected(other, tag),
        ErrorKind::TagUnknown { octet: 0x00 },
        ErrorKind::TagUnknown { octet: 0x1f },
        ErrorKind::TrailingData,
        ErrorKind::Value { tag },
        ErrorKind::Value { tag: other },
        ErrorKind::NoRoom,
        ErrorKind::File,
        ErrorKind::OutOfMemory,
        ErrorKind::Value { tag: Tag::NULL },
    ]
}

/// The error that one tag was found in place of another.
fn unexpected(expected: Tag, actual: Tag) -> ErrorKind {
    ErrorKind::TagUnexpected { expected, actual }
}

#[test]
fn errors_are_equal_where_they_tell_the_same() { let rt = HostRuntime;
    let kinds = kinds(Tag::INTEGER, Tag::SEQUENCE);
    all_differ(&rt, &kinds);
    all_differ(&rt, &kinds.map(Error::new));
    all_differ(&rt, &kinds.map(|kind| crate::proved::pkcs1::Error::Asn1(Error::new(kind))));
    let [.., kind] = kinds;
    all_differ(
        &rt,
        &[
            crate::proved::pkcs1::Error::Asn1(Error::new(kind)),
            crate::proved::pkcs1::Error::Crypto,
            crate::proved::pkcs1::Error::KeyMalformed,
            crate::proved::pkcs1::Error::Version,
        ],
    );
}

/// The output of `Debug`.
fn printed<T: Debug>(alloc: Global, value: &T) -> Result<String, Fail> {
    Ok(format!(in alloc; "{value:?}")?)
}

#[test]
fn a_secret_document_shows_no_byte() -> Result<(), Fail> { let rt = HostRuntime;
    let alloc = rt.alloc();
    let document = printed(alloc, &Document::from_der(alloc, &[0x30, 0x00])?)?;
    equal(&rt, document.as_str(), "Document { bytes: [48, 0] }");
    let secret = printed(alloc, &SecretDocument::from_der(alloc, &[0x30, 0x00])?)?;
    equal(&rt, secret.as_str(), "SecretDocument { .. }");
    Ok(())
}

#[test]
fn parameters_are_printed_by_their_fields() -> Result<(), Fail> { let rt = HostRuntime;
    let alloc = rt.alloc();
    let any = printed(alloc, &AnyRef::new(Tag::INTEGER, &[7])?)?;
    equal(
        &rt,
        any.as_str(),
        "AnyRef { tag: Tag { octet: 2 }, contents: [7] }",
    );
    let pss = RsaPssParamsRef::new::<Sha256>(32);
    let (oid, hash) = (printed(alloc, &pss.hash.oid)?, printed(alloc, &pss.hash)?);
    let null = "Some(AnyRef { tag: Tag { octet: 5 }, contents: [] })";
    let want = format!(in alloc; "AlgorithmIdentifier {{ oid: {oid}, parameters: {null} }}")?;
    equal(&rt, hash.as_str(), want.as_str());
    let fields = format!(in alloc; "hash: {hash}, mask_gen: {:?}", pss.mask_gen)?;
    let want = format!(in alloc; "RsaPssParams {{ {fields}, salt_len: 32, trailer_field: BC }}")?;
    equal(&rt, printed(alloc, &pss)?.as_str(), want.as_str());
    let oaep = RsaOaepParamsRef::new::<Sha256>();
    let want = format!(in alloc;
        "RsaOaepParams {{ {fields}, p_source: {:?} }}",
        oaep.p_source
    )?;
    equal(&rt, printed(alloc, &oaep)?.as_str(), want.as_str());
    Ok(())
}

#[test]
fn long_values_are_copied() -> Result<(), Fail> { let rt = HostRuntime;
    let alloc = rt.alloc();
    let octets = vec![in alloc; 0x11u8; 0x10_0000]?;
    let number = Uint::new_in(alloc, octets.as_slice())?;
    let copy = number.try_clone_in(alloc)?;
    holds(&rt, number.as_bytes() == octets.as_slice());
    holds(&rt, copy.as_bytes() == octets.as_slice());
    let any = Any::new_in(alloc, Tag::NULL, octets.as_slice())?;
    let copy = any.try_clone_in(alloc)?;
    holds(&rt, any.as_any_ref().value() == octets.as_slice());
    holds(&rt, copy.as_any_ref().value() == octets.as_slice());
    let mut encoding = Vec::from_slice(alloc, &[0x30, 0x83, 0x10, 0x00, 0x00])?;
    encoding.extend_from_slice(octets.as_slice())?;
    let document = Document::from_der(alloc, encoding.as_slice())?;
    holds(&rt, document.as_bytes() == encoding.as_slice());
    Ok(())
}
