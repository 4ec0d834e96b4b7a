//! The program, without what is there for the proof. Made by tools/erase/erase.py.
pub mod pkcs1_program;
pub mod pkcs1_tool;
