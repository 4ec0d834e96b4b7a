//! RSA keys and parameters of PKCS #1 (RFC 8017) in DER, made of what is proved.
//!
#![doc = include_str!("front.md")]
//!
//! [`sequence!`] makes types of your own, such as an ECDSA signature:
//!
//! ```
//! use pkcs1_proved::{UintRef, der::Decode, sequence};
//!
//! sequence! {
//!     struct EcdsaSigValue<'a> {
//!         r: UintRef<'a>,
//!         s: UintRef<'a>,
//!     }
//! }
//!
//! let signature = EcdsaSigValue::from_der(&[0x30, 6, 2, 1, 7, 2, 1, 3])?;
//! assert_eq!(signature.s.as_bytes(), [3]);
//! # Ok::<(), pkcs1_proved::der::Error>(())
//! ```
//!
//! The functions that read and write stand in `src/proved`: a machine has proved that they do what their contracts in
//! the language Rattle say. This crate and the compiler aren't proved, but tested. The README has more: what stands
//! beside RustCrypto's `pkcs1`, what isn't read, and what may panic.
#![no_std]
#![cfg_attr(docsrs, feature(doc_cfg))]
#![forbid(unsafe_code)]
#![warn(missing_docs, unnameable_types)]

#[cfg(target_pointer_width = "16")]
compile_error!("a length in DER needs a usize of 32 bits or more");

#[cfg(feature = "alloc")]
extern crate alloc;
#[cfg(feature = "std")]
extern crate std;

mod algorithm;
pub mod algorithms;
mod asked;
mod clones;
mod contents;
mod conversions;
mod default;
pub mod der;
#[cfg(feature = "alloc")]
mod documents;
#[cfg(feature = "std")]
mod files;
mod identifier;
mod idioms;
#[doc(hidden)]
#[allow(missing_docs)]
pub mod kernel;
mod keys;
mod list;
mod numbers;
mod oaep;
mod oid_text;
mod params;
mod part;
pub mod pkcs8;
// Without the proof, names are left that only contracts used, and functions that only they called.
#[rustfmt::skip]
#[allow(
    clippy::complexity,
    clippy::style,
    dead_code,
    missing_docs,
    unnameable_types,
    unused_imports,
    unused_variables
)]
mod proved;
mod pss;
#[cfg_attr(not(feature = "std"), allow(dead_code))]
#[allow(unnameable_types)]
mod rattle_std;
mod row;
mod sequence;
mod traits;
mod values;

#[doc(no_inline)]
pub use algorithms::*;
pub use der::asn1::{ObjectIdentifier, Uint, UintRef};
#[cfg(feature = "std")]
pub use files::FileError;
pub use keys::{OtherPrimeInfos, RsaPrivateKey, RsaPrivateKeyOwned, RsaPrivateKeyRef};
pub use oaep::{RsaOaepParams, RsaOaepParamsOwned, RsaOaepParamsRef, RsaOaepParamsView};
pub use proved::pkcs1::{
    Error, OtherPrimeInfo, OtherPrimes, Result, RsaPrivateKeyView, RsaPublicKey, RsaPublicKeyOwned, RsaPublicKeyRef,
    TrailerField, Version,
};
pub use pss::{RsaPssParams, RsaPssParamsOwned, RsaPssParamsRef, RsaPssParamsView};
pub use traits::{DecodeRsaPrivateKey, DecodeRsaPublicKey};
#[cfg(feature = "alloc")]
pub use traits::{EncodeRsaPrivateKey, EncodeRsaPublicKey};

/// The object identifier of RSA keys, rsaEncryption (RFC 8017 A.1).
pub const ALGORITHM_OID: ObjectIdentifier = <RsaEncryption as der::oid::AssociatedOid>::OID;

/// The algorithm identifier of RSA keys: rsaEncryption with NULL.
pub const ALGORITHM_ID: spki::AlgorithmIdentifierRef<'static> =
    spki::AlgorithmIdentifier { oid: ALGORITHM_OID, parameters: Some(der::asn1::AnyRef::NULL) };

/// Traits of what holds numbers, identifiers and contents octets, borrowed or owned: for functions over both. They can't
/// be implemented elsewhere.
pub mod holders {
    pub use crate::identifier::{Identifier, OfIdentifier};
    pub use crate::values::{Held, Number};
}

/// Algorithm identifiers.
pub mod spki {
    pub use crate::algorithm::{AlgorithmIdentifier, AlgorithmIdentifierOwned, AlgorithmIdentifierRef};
    pub use crate::identifier::{AssociatedOid, ObjectIdentifier};
}
