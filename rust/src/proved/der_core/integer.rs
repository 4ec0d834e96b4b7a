// Made of crates/der_core/src/integer.rt by tools/erase/erase.py, and not to be edited.
//! INTEGER: unsigned numbers (X.690 8.3), of any size and from 0 to 255.
mod owned;
mod small;
mod uint;

pub use owned::Uint;
pub use uint::{AsUintRef, UintEncoding, UintRef};
