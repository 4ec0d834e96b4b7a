//! The proved crates, without what is there for the proof. Made by tools/erase/erase.py.
pub mod der_core;
pub mod spki_core;
pub mod pkcs1_params;
pub mod pkcs1;
pub mod pkcs8_core;
