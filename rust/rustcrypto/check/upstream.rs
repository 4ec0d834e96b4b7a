//! What tests/faults.rs says of this crate, and of RustCrypto's pkcs1 0.8, holds of that itself.
extern crate theirs as pkcs1;

include!("shared/faults.rs");

#[test]
fn read() {
    for (name, row) in READ_THERE {
        let der = octets(row);
        assert_eq!(errors(name, der, &mut SliceReader::new(der).unwrap()), (None, None), "{name} {row}");
    }
    assert_eq!(left(), [None, None]);
    assert_eq!(RsaPublicKeyOwned::from_der(octets(NEGATIVE)).unwrap_err().position(), None);
}
