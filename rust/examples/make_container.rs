//! `make_container KEY OUT`: puts the private key in the file KEY into a PKCS #8 container, in the file OUT.
use pkcs1_proved::{DecodeRsaPrivateKey, RsaPrivateKeyOwned};

fn main() -> Result<(), Box<dyn std::error::Error>> {
    let words: Vec<String> = std::env::args().skip(1).collect();
    let [from, to] = &words[..] else { return Err("usage: make_container KEY OUT".into()) };
    let key = RsaPrivateKeyOwned::read_pkcs1_der_file(from).map_err(|error| format!("{from}: {error}"))?;
    key.to_pkcs8_der()?.write_der_file(to)?;
    Ok(())
}
