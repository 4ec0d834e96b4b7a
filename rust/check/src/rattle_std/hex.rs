//! The rest of the kit's crate `hex`.

pub use super::tool::hex::{FromHexError, decode_to_slice, encode_to_slice};

use super::alloc::{AllocError, Global};
use super::prelude::{String, Vec};

pub fn encode<T: AsRef<[u8]>>(_alloc: Global, data: T) -> Result<String, AllocError> {
    Ok(String(data.as_ref().iter().map(|octet| std::format!("{octet:02x}")).collect()))
}

pub fn decode<T: AsRef<[u8]>>(alloc: Global, data: T) -> Result<Vec<u8>, FromHexError> {
    let half = data.as_ref().len() / 2;
    let mut out = Vec::repeated(alloc, 0, half).map_err(|_| FromHexError::OutOfMemory)?;
    decode_to_slice(data, out.as_mut_slice())?;
    Ok(out)
}
