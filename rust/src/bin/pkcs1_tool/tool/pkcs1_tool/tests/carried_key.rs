// Made of crates/pkcs1_tool/src/tests/carried_key.rt by tools/erase/erase.py, and not to be edited.
//! A key type of a caller, which implements the traits of keys.

use crate::rattle_std::prelude::{HostRuntime, Vec};
use crate::tool::pkcs1_tool::tests::checks::equal;
use crate::tool::pkcs1_tool::tests::key_files::PRIVATE;
use crate::proved::der_core::{Document, Error, ErrorKind, SecretDocument, Tag};
use crate::proved::pkcs1::{DecodeRsaPrivateKey, EncodeRsaPrivateKey, EncodeRsaPublicKey, Result};
use crate::rattle_std::alloc::Global;
use crate::rattle_std::fs;
use crate::rattle_std::path::Path;
use crate::rattle_std::test::Fail;

/// A key that holds the bytes that it was made from, whatever they are.
#[derive(Debug, PartialEq, Eq)]
pub struct CarriedKey {
    bytes: Vec<u8>,
}

/// Copies the bytes.
fn copied(alloc: Global, bytes: &[u8]) -> crate::proved::der_core::Result<Vec<u8>> {
    let mut copy = Vec::new_in(alloc);
    copy.extend_from_slice(bytes)?;
    Ok(copy)
}

impl DecodeRsaPrivateKey for CarriedKey {
    fn from_pkcs1_der(alloc: Global, bytes: &[u8]) -> Result<CarriedKey> {
        Ok(CarriedKey {
            bytes: copied(alloc, bytes)?,
        })
    }
}

impl EncodeRsaPrivateKey for CarriedKey {
    fn to_pkcs1_der(&self, alloc: Global) -> Result<SecretDocument> {
        Ok(SecretDocument::from_der(alloc, self.bytes.as_slice())?)
    }
}

impl EncodeRsaPublicKey for CarriedKey {
    fn to_pkcs1_der(&self, alloc: Global) -> Result<Document> {
        Ok(Document::from_der(alloc, self.bytes.as_slice())?)
    }
}

#[test]
fn a_carried_key_goes_through_a_file() -> std::result::Result<(), Fail> { let rt = HostRuntime;
    let key = CarriedKey::from_pkcs1_der(rt.alloc(), PRIVATE)?;
    let path = Path::new("carried_key.der");
    EncodeRsaPrivateKey::write_pkcs1_der_file(&key, &mut &rt, rt.alloc(), path)?;
    let again = CarriedKey::read_pkcs1_der_file(&mut &rt, rt.alloc(), path)?;
    fs::remove_file(&rt, path)?;
    equal(&rt, again.bytes.as_slice(), PRIVATE);
    Ok(())
}

#[test]
fn a_carried_key_that_is_no_document_leaves_an_old_file() -> std::result::Result<(), Fail> { let rt = HostRuntime;
    let key = CarriedKey::from_pkcs1_der(rt.alloc(), &[0x05, 0x00])?;
    let kind = ErrorKind::TagUnexpected {
        expected: Tag::SEQUENCE,
        actual: Tag::from_octet(0x05)?,
    };
    let rejected = crate::proved::pkcs1::Error::Asn1(Error::new(kind));
    let private = EncodeRsaPrivateKey::to_pkcs1_der(&key, rt.alloc()).map(|_| ());
    equal(&rt, private, Err(rejected));
    let path = Path::new("untouched.der");
    fs::write(&rt, path, "old")?;
    let private = EncodeRsaPrivateKey::write_pkcs1_der_file(&key, &mut &rt, rt.alloc(), path);
    let public = EncodeRsaPublicKey::write_pkcs1_der_file(&key, &mut &rt, rt.alloc(), path);
    let kept = fs::read(&rt, path)?;
    fs::remove_file(&rt, path)?;
    equal(&rt, private, Err(rejected));
    equal(&rt, public, Err(rejected));
    equal(&rt, kept.as_slice(), b"old".as_slice());
    Ok(())
}
