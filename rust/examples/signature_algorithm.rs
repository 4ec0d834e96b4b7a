//! `signature_algorithm FILE`: prints the salt length of RSASSA-PSS with SHA-256, by which the certificate in the file,
//! in DER, is signed.
use pkcs1_proved::der::asn1::AnyRef;
use pkcs1_proved::der::{Decode, Result};
use pkcs1_proved::{RsaPssParamsRef, Sha256};

/// The algorithm of a certificate's signature, which stands behind what is signed.
fn signature_algorithm(certificate: &[u8]) -> Result<&[u8]> {
    let (_, behind) = AnyRef::from_der_partial(AnyRef::from_der(certificate)?.value())?;
    let (_, last) = AnyRef::from_der_partial(behind)?;
    Ok(&behind[..behind.len() - last.len()])
}

fn main() -> std::result::Result<(), Box<dyn std::error::Error>> {
    let path = std::env::args().nth(1).ok_or("usage: signature_algorithm FILE")?;
    let certificate = std::fs::read(&path)?;
    let der = signature_algorithm(&certificate).map_err(|_| format!("{path}: no certificate in DER"))?;
    let params = RsaPssParamsRef::from_algorithm_der(der).map_err(|error| format!("{path}: {error}"))?;
    if !params.uses_hash::<Sha256>() {
        return Err(format!("{path}: the hash function {} is not accepted", params.hash.oid).into());
    }
    println!("SHA-256, a salt of {} octets", params.salt_len);
    Ok(())
}
