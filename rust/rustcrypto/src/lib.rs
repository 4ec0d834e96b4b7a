//! The names of RustCrypto's `pkcs1` 0.8, and in `older` those of 0.7, over the crates `der`, `spki` and `pkcs8`. The
//! README says what is proved of it.
#![no_std]
#![forbid(unsafe_code)]
#![warn(missing_docs)]

#[cfg(feature = "alloc")]
extern crate alloc;
#[cfg(feature = "std")]
extern crate std;

mod coding;
#[cfg(feature = "pkcs8")]
mod containers;
mod error;
mod fault;
mod keys;
mod mirror;
mod params;
mod traits;
/// What is otherwise from release to release of `der`, `spki` and `pkcs8`.
mod release {
    include!(concat!(env!("CARGO_MANIFEST_DIR"), "/release.rs"));
}

pub use der;
#[cfg(feature = "alloc")]
pub use der::asn1::Uint;
pub use der::asn1::{ObjectIdentifier, UintRef};
#[cfg(feature = "pem")]
pub use der::pem::{self, LineEnding};
pub use error::{Error, Result};
pub use keys::{ALGORITHM_ID, ALGORITHM_OID, RsaPrivateKeyRef, RsaPublicKeyRef, Version};
#[cfg(feature = "alloc")]
pub use keys::{RsaPrivateKeyOwned, RsaPublicKeyOwned};
#[cfg(feature = "alloc")]
pub use params::{RsaOaepParamsOwned, RsaPssParamsOwned};
pub use params::{RsaOaepParamsRef, RsaPssParamsRef, TrailerField};
pub use release::*;
pub use traits::*;
