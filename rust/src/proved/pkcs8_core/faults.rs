// Made of crates/pkcs8_core/src/faults.rt by tools/erase/erase.py, and not to be edited.
//! Why bytes encode no container: the error of reading, as a function of the bytes alone.

use crate::proved::pkcs8_core::info::PrivateKeyInfoRef;
use crate::proved::pkcs1::der::ErrorKind;

/// The kind of the first fault of bytes that don't encode a container, or `None` if they do. There is exactly one
/// result for each slice, as reading allocates nothing.
pub fn fault_of_private_key_info(bytes: &[u8]) -> Option<ErrorKind> {
    match PrivateKeyInfoRef::try_from(bytes) {
        Ok(_) => None,
        Err(error) => Some(error.kind()),
    }
}
