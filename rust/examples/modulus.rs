//! `modulus FILE`: prints the modulus of the public key in a file.
use pkcs1_proved::{DecodeRsaPublicKey, RsaPublicKeyOwned};

fn main() -> Result<(), Box<dyn std::error::Error>> {
    let path = std::env::args().nth(1).ok_or("usage: modulus FILE")?;
    let key = RsaPublicKeyOwned::read_pkcs1_der_file(&path).map_err(|error| format!("{path}: {error}"))?;
    println!("{:x}", key.modulus);
    Ok(())
}
