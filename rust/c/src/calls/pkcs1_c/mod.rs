// Made of crates/pkcs1_c/src/lib.rt by tools/erase/erase.py, and not to be edited.
//! Keys and parameters of PKCS #1 for C: the calls that `ffi/lib/include/pkcs1_c.h` declares, with the structs and
//! statuses of `ffi/lib/include/pkcs1.h`.

mod algorithm;
mod bytes;
mod container;
mod filled;
mod given_key;
mod given_primes;
mod meanings;
mod numbers;
mod oaep;
mod oaep_algorithm;
mod private_key;
mod pss;
mod pss_algorithm;
mod public_key;
mod status;
mod written;

pub use algorithm::{Algorithm, MaskGen, pkcs1_c_algorithm_is, pkcs1_c_uses_hash};
pub use bytes::Bytes;
pub use container::{
    PrivateKeyInfo, pkcs1_c_private_key_info_decode, pkcs1_c_private_key_info_encode,
};
pub use meanings::{
    pkcs1_c_algorithm_is_same_hash, pkcs1_c_oaep_means_same, pkcs1_c_pss_means_same,
};
pub use numbers::pkcs1_c_bit_len;
pub use oaep::{
    OaepParams, pkcs1_c_oaep_label, pkcs1_c_oaep_params_decode, pkcs1_c_oaep_params_decode_strict,
    pkcs1_c_oaep_params_encode,
};
pub use oaep_algorithm::{
    pkcs1_c_oaep_algorithm_decode, pkcs1_c_oaep_algorithm_decode_strict,
    pkcs1_c_oaep_algorithm_encode,
};
pub use private_key::{
    OtherPrime, PrivateKey, pkcs1_c_other_primes, pkcs1_c_private_key_decode,
    pkcs1_c_private_key_encode,
};
pub use pss::{
    PssParams, pkcs1_c_pss_params_decode, pkcs1_c_pss_params_decode_strict,
    pkcs1_c_pss_params_encode,
};
pub use pss_algorithm::{
    pkcs1_c_pss_algorithm_decode, pkcs1_c_pss_algorithm_decode_strict, pkcs1_c_pss_algorithm_encode,
};
pub use public_key::{PublicKey, pkcs1_c_public_key_decode, pkcs1_c_public_key_encode};
pub use status::{pkcs1_c_status_text, pkcs1_c_version};
