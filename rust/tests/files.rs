//! Keys and documents are read from files, and written to files.
#![cfg(feature = "std")]

mod made;

use pkcs1_proved::der::{Document, ErrorKind, SecretDocument};
use pkcs1_proved::{
    DecodeRsaPrivateKey, DecodeRsaPublicKey, EncodeRsaPrivateKey, EncodeRsaPublicKey, Error, FileError,
    RsaPrivateKeyOwned, RsaPublicKeyOwned,
};
use std::io;
use std::path::PathBuf;

/// A path at which nothing is, of one test alone.
fn path(name: &str) -> PathBuf {
    std::env::temp_dir().join(format!("{name}-{}.der", std::process::id()))
}

/// What kind of call failed.
fn failed<T>(answer: Result<T, FileError>) -> Option<io::ErrorKind> {
    match answer {
        Err(FileError::Io(error)) => Some(error.kind()),
        _ => None,
    }
}

#[test]
fn keys_are_read_and_written() {
    let (path, der, public) = (path("key"), made::private_key(1), made::public_key());
    let key = RsaPrivateKeyOwned::from_pkcs1_der(&der).unwrap();
    key.write_pkcs1_der_file(&path).unwrap();
    assert_eq!(std::fs::read(&path).unwrap(), der);
    let again = RsaPrivateKeyOwned::read_pkcs1_der_file(&path).unwrap();
    assert_eq!(again.to_pkcs1_der().unwrap().as_bytes(), der);
    let key = RsaPublicKeyOwned::from_pkcs1_der(&public).unwrap();
    key.write_pkcs1_der_file(&path).unwrap();
    assert_eq!((std::fs::read(&path).unwrap(), RsaPublicKeyOwned::read_pkcs1_der_file(&path).unwrap()), (public, key));
    std::fs::remove_file(&path).unwrap();
}

#[test]
fn long_documents_are_read_and_written() {
    let (path, der) = (path("long"), made::sequence(&[made::tlv(4, &vec![0x11; 1 << 20])]));
    Document::from_der(&der).unwrap().write_der_file(&path).unwrap();
    assert_eq!(std::fs::read(&path).unwrap(), der);
    assert_eq!(Document::read_der_file(&path).unwrap().as_bytes(), der);
    std::fs::remove_file(&path).unwrap();
}

#[test]
fn an_error_says_which_call_failed() {
    let (path, folder) = (path("error"), std::env::temp_dir());
    assert_eq!(failed(RsaPrivateKeyOwned::read_pkcs1_der_file(&path)), Some(io::ErrorKind::NotFound));
    assert_eq!(failed(Document::read_der_file(&path)), Some(io::ErrorKind::NotFound));
    let document = Document::from_der(&[0x30, 0]).unwrap();
    let error = document.write_der_file(path.join("below")).unwrap_err();
    assert_eq!(error.to_string(), io::Error::from_raw_os_error(2).to_string());
    let same = std::fs::write(&folder, b"").unwrap_err().kind();
    assert_eq!(failed(document.write_der_file(&folder)), Some(same));
    let same = std::fs::read(&folder).unwrap_err().kind();
    assert_eq!(failed(SecretDocument::read_der_file(&folder)), Some(same));

    std::fs::write(&path, [0x30, 1]).unwrap();
    let error = RsaPrivateKeyOwned::read_pkcs1_der_file(&path).unwrap_err();
    assert!(matches!(error, FileError::Value(Error::Asn1(error)) if error.kind() == ErrorKind::Incomplete));
    std::fs::remove_file(&path).unwrap();
    let less: Error = RsaPrivateKeyOwned::read_pkcs1_der_file(&path).unwrap_err().into();
    assert_eq!(less, Error::Asn1(ErrorKind::File.into()));
}

#[cfg(unix)]
#[test]
fn only_the_owner_may_read_a_new_file_of_a_private_key() {
    use std::os::unix::fs::{MetadataExt, PermissionsExt};
    let path = path("mode");
    let mode = || std::fs::metadata(&path).unwrap().mode() & 0o777;
    let key = RsaPrivateKeyOwned::from_pkcs1_der(&made::private_key(0)).unwrap();
    let public = RsaPublicKeyOwned::try_from(key.public_key()).unwrap();
    std::fs::write(&path, b"").unwrap();
    let usual = mode();

    public.write_pkcs1_der_file(&path).unwrap();
    std::fs::remove_file(&path).unwrap();
    public.write_pkcs1_der_file(&path).unwrap();
    assert_eq!(mode(), usual);
    std::fs::remove_file(&path).unwrap();
    for _ in 0..2 {
        key.write_pkcs1_der_file(&path).unwrap();
        assert_eq!(mode(), 0o600);
    }
    std::fs::remove_file(&path).unwrap();
    key.to_pkcs8_der().unwrap().write_der_file(&path).unwrap();
    assert_eq!(mode(), 0o600);
    std::fs::set_permissions(&path, PermissionsExt::from_mode(0o640)).unwrap();
    key.write_pkcs1_der_file(&path).unwrap();
    assert_eq!(mode(), 0o640);
    std::fs::remove_file(&path).unwrap();
}

#[cfg(target_os = "linux")]
#[test]
fn a_full_device_is_told() {
    let document = Document::from_der(&[0x30, 0]).unwrap();
    assert_eq!(failed(document.write_der_file("/dev/full")), Some(io::ErrorKind::StorageFull));
}
