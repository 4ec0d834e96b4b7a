//! Without the features `alloc` and `std`: what borrows is read and written, and a private key of two primes alone.
use der::{Decode, Encode, ErrorKind, Tag};
use pkcs1::{Error, RsaOaepParamsRef, RsaPrivateKeyRef, RsaPssParamsRef, RsaPublicKeyRef, TrailerField, Version};

#[test]
fn bare() {
    macro_rules! rows {
        ($($name:ident, $der:expr;)*) => { $(
            let (der, mut room) = (&$der[..], [0; 2000]);
            assert_eq!($name::from_der(der).unwrap().encode_to_slice(&mut room).unwrap(), der);
        )* };
    }
    rows! {
        Version, [2, 1, 1];
        TrailerField, [2, 1, 1];
        RsaPublicKeyRef, include_bytes!("../../../ffi/tests/keys/pub2.der");
        RsaPrivateKeyRef, include_bytes!("../../../ffi/tests/keys/priv2.der");
        RsaPssParamsRef, include_bytes!("../../../ffi/tests/keys/pss_sha256.der");
        RsaOaepParamsRef, include_bytes!("../../../ffi/tests/keys/oaep_sha512.der");
    }
    let of_three_primes = RsaPrivateKeyRef::from_der(include_bytes!("../../../ffi/tests/keys/priv3.der"));
    let refused = ErrorKind::Value { tag: Tag::Integer };
    assert_eq!(of_three_primes.err().map(|error| error.kind()), (!cfg!(feature = "alloc")).then_some(refused));
}

/// A long encoding has its own error in a slice. In a reader it has none, unless there is an allocator.
#[test]
fn long() {
    let mut der = [0x31; 5200];
    der[..4].copy_from_slice(&[0x30, 0x82, 0x14, 0x4c]);
    let refused = RsaPublicKeyRef::from_der(&der).unwrap_err();
    let found = ErrorKind::TagUnexpected { expected: Some(Tag::Integer), actual: Tag::Set };
    assert_eq!(refused.kind(), if cfg!(feature = "alloc") { found } else { ErrorKind::Value { tag: Tag::Sequence } });
    let Err(Error::Asn1(refused)) = RsaPublicKeyRef::try_from(&der[..]) else { panic!("it isn't refused") };
    assert_eq!(refused.kind(), found);
}
