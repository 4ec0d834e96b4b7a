// Made of crates/pkcs8_core/src/lib.rt by tools/erase/erase.py, and not to be edited.
//! PKCS #8 containers of private keys (RFC 5208) in DER.

mod attributes;
mod faults;
mod info;
mod rsa;

pub use faults::fault_of_private_key_info;
pub use info::{
    PrivateKeyInfoOf, PrivateKeyInfoRef, PrivateKeyInfoView, lemma_container_clones_mean_the_same,
    lemma_containers_decode, lemma_containers_exclude_other_types,
    lemma_containers_have_one_encoding, lemma_containers_share_the_grammar,
    lemma_containers_take_no_memory,
};
pub use rsa::rsa_from_pkcs8_der;
