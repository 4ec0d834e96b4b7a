// Made of crates/pkcs1_params/src/default_salt.rt by tools/erase/erase.py, and not to be edited.
//! The default salt length, as a constant for parameters of every type.

use crate::proved::pkcs1_params::pss::{RsaPssParams, RsaPssParamsRef};

/// Parameters with a default salt length. This is a trait, since a proof can't use the constant of an `impl` that has a
/// type parameter.
pub trait DefaultSalt {
    /// The default salt length in octets.
    const SALT_LEN_DEFAULT: u8;
}

impl<P> DefaultSalt for RsaPssParams<P> {
    const SALT_LEN_DEFAULT: u8 = RsaPssParamsRef::SALT_LEN_DEFAULT;
}
