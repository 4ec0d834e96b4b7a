//! Libraries of others in Rust.
#![allow(non_upper_case_globals)]
use own::{calls::Type, library, reads_and_writes};

mod rust_asn1;
mod rustcrypto;
