//! Prints the bit length of the public key on standard input.
use pkcs1_proved::RsaPublicKeyRef;
use std::io::Read;

fn main() -> Result<(), Box<dyn std::error::Error>> {
    let mut der = Vec::new();
    std::io::stdin().read_to_end(&mut der)?;
    let key = RsaPublicKeyRef::try_from(&der[..])?;
    println!("{} bits", key.modulus.bit_len());
    Ok(())
}
