//! `make_params OUT`: writes the algorithm identifier of RSASSA-PSS with SHA-256 and a salt of 32 octets to the file
//! OUT.
use pkcs1_proved::{RsaPssParamsRef, Sha256};

fn main() -> Result<(), Box<dyn std::error::Error>> {
    let path = std::env::args().nth(1).ok_or("usage: make_params OUT")?;
    let params = RsaPssParamsRef::new::<Sha256>(32);
    std::fs::write(path, params.to_algorithm_der()?)?;
    Ok(())
}
