// Made of crates/pkcs1_program/src/copied.rt by tools/erase/erase.py, and not to be edited.
//! The kinds of keys that are copied.

use crate::tool::pkcs1_program::replace::Mode;
use crate::proved::pkcs1::{Error, RsaPrivateKeyView, RsaPublicKeyRef};

/// A kind of key, whose encodings are copied.
pub trait Copied {
    /// Looks whether the bytes encode a key.
    fn check(bytes: &[u8]) -> Result<(), Error>;

    /// The mode of a new file: the bits of the file that was read, and of the one that is replaced, if there is one.
    fn new_mode(read: u32, replaced: Option<u32>) -> Mode;
}

/// Public keys.
pub struct Public;

impl Copied for Public {
    fn check(bytes: &[u8]) -> Result<(), Error> {
        RsaPublicKeyRef::try_from(bytes)?;
        Ok(())
    }

    /// That of the file that is replaced, or else of the file that was read.
    fn new_mode(read: u32, replaced: Option<u32>) -> Mode {
        Mode {
            bits: replaced.unwrap_or(read) & 0o777,
            umask_takes: replaced.is_none(),
        }
    }
}

/// Private keys.
pub struct Private;

impl Copied for Private {
    fn check(bytes: &[u8]) -> Result<(), Error> {
        RsaPrivateKeyView::try_from(bytes)?;
        Ok(())
    }

    /// The owner's bits of the file that was read. Nobody else gets any.
    fn new_mode(read: u32, _replaced: Option<u32>) -> Mode {
        Mode {
            bits: read & 0o700,
            umask_takes: true,
        }
    }
}
