//! Faulty encodings are refused with the errors of RustCrypto's pkcs1 0.8 over der 0.8.1: kind, lengths and position.
//! What only this crate refuses, or says otherwise, stands below.
include!("shared/faults.rs");

#[test]
fn refused() {
    for (name, row) in READ_THERE {
        let der = octets(row);
        let (whole, decoded) = errors(name, der, &mut SliceReader::new(der).unwrap());
        let said = decoded.unwrap();
        assert_eq!(said.to_string(), "malformed ASN.1 DER value for SEQUENCE", "{name} {row}");
        assert_eq!(whole, Some(said.into()), "{name} {row}");
    }
    let mut reader = SliceReader::new(octets("02010730080201070201030500")).unwrap();
    reader.read_slice(3u8.into()).unwrap();
    let within = RsaPublicKeyRef::decode(&mut reader).err();
    for (error, at) in left().into_iter().zip([8, 8]).chain([(within, 11)]) {
        let said = format!("decoded {at} bytes, 2 bytes remaining at DER byte {at}");
        assert!(error.unwrap().to_string().ends_with(&said));
    }
}

/// An error in a number has its position in a key that owns its numbers too.
#[test]
fn owned() {
    let (der, borrowed) = (octets(NEGATIVE), RsaPublicKeyRef::try_from(octets(NEGATIVE)).unwrap_err());
    assert_eq!(RsaPublicKeyOwned::try_from(der).unwrap_err(), borrowed);
    assert_eq!(RsaPublicKeyOwned::from_der(der).unwrap_err().position(), Some(8u8.into()));
}

/// Of what is left, `from_der` counts what the SEQUENCE has. It doesn't look at what follows an encoding that only this
/// crate refuses.
#[test]
fn behind() {
    let error = RsaPublicKeyRef::from_der(octets("30080201070201030500ff")).unwrap_err();
    assert!(error.to_string().contains("8 bytes, 2 bytes remaining"));
    let error = RsaOaepParamsRef::from_der(octets("300ea20c300a06052b8003021a04016100")).unwrap_err();
    assert_eq!(error.to_string(), "malformed ASN.1 DER value for SEQUENCE");
}
