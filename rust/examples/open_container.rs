//! `open_container FILE KEY PUBLIC`: reads a private key, which is PKCS #1 or an unencrypted PKCS #8 container. Writes
//! it as PKCS #1 to KEY, and its public half to PUBLIC.
use pkcs1_proved::der::{Encode, ErrorKind};
use pkcs1_proved::{EncodeRsaPrivateKey, Error, RsaPrivateKeyOwned};

/// The private key in a file of either kind.
fn read_key(path: &str) -> Result<RsaPrivateKeyOwned, Box<dyn std::error::Error>> {
    let der = std::fs::read(path)?;
    match RsaPrivateKeyOwned::try_from(&der[..]) {
        Err(Error::Asn1(error)) if matches!(error.kind(), ErrorKind::TagUnexpected { .. }) => {
            Ok(RsaPrivateKeyOwned::from_pkcs8_der(&der)?)
        }
        key_or_error => Ok(key_or_error?),
    }
}

fn main() -> Result<(), Box<dyn std::error::Error>> {
    let words: Vec<String> = std::env::args().skip(1).collect();
    let [from, to, public] = &words[..] else { return Err("usage: open_container FILE KEY PUBLIC".into()) };
    let key = read_key(from).map_err(|error| format!("{from}: {error}"))?;
    key.write_pkcs1_der_file(to)?;
    std::fs::write(public, key.public_key().to_der()?)?;
    Ok(())
}
