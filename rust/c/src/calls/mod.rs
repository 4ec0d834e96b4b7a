//! The calls for C, without what is there for the proof. Made by tools/erase/erase.py.
pub mod pkcs1_c;
