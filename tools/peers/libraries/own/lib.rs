//! The crate of this repository, as it is measured without other libraries.
#![allow(non_upper_case_globals)]
#[macro_use]
pub mod calls;
pub mod crate_for_rust;
