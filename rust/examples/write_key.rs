//! Writes a public key of two numbers into an array, and prints the octets. Nothing is allocated for the key.
use pkcs1_proved::der::Encode;
use pkcs1_proved::{RsaPublicKeyRef, UintRef};

fn main() -> Result<(), pkcs1_proved::Error> {
    let (modulus, exponent) = ([0xc1, 0x7f], [3]);
    let key = RsaPublicKeyRef { modulus: UintRef::new(&modulus)?, public_exponent: UintRef::new(&exponent)? };
    let mut room = [0; 16];
    let der = key.encode_to_slice(&mut room)?;
    println!("{der:02x?}");
    Ok(())
}
