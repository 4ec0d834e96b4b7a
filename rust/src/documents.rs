//! Documents: one whole SEQUENCE each, in memory.

use crate::der::{Decode, Encode, Error, Length, Result, cloned};
#[cfg(feature = "std")]
use crate::files::{FileError, Host};
use crate::proved::der_core as proved;
#[cfg(feature = "std")]
use crate::rattle_std::path::Path;
use crate::rattle_std::{alloc::Global, prelude::Vec as List};
use alloc::vec::Vec;
use core::fmt;

pub use proved::{Open, Secret};

/// One whole SEQUENCE. `S` says whether it is secret: see [`Document`] and [`SecretDocument`].
#[derive(PartialEq, Eq)]
pub struct DocumentOf<S>(proved::DocumentOf<S>);

/// One whole SEQUENCE.
pub type Document = DocumentOf<Open>;

/// One whole SEQUENCE that is secret: `Debug` shows none of its bytes, and it can't be compared.
pub type SecretDocument = DocumentOf<Secret>;

impl<S> DocumentOf<S> {
    /// The encoding.
    #[must_use]
    pub fn as_bytes(&self) -> &[u8] {
        self.0.as_bytes()
    }

    /// How many octets the encoding has, at least two.
    #[must_use]
    pub fn len(&self) -> Length {
        self.0.len()
    }

    /// Never: an encoding has two octets or more.
    #[must_use]
    pub const fn is_empty(&self) -> bool {
        false
    }

    /// Decodes a message.
    /// # Errors
    /// The document is none.
    pub fn decode_msg<'a, T: Decode<'a>>(&'a self) -> Result<T> {
        T::from_der(self.as_bytes())
    }

    /// Encodes a message.
    /// # Errors
    /// It has no encoding, this is no SEQUENCE, or there is no memory.
    pub fn encode_msg<T: Encode + ?Sized>(message: &T) -> Result<DocumentOf<S>> {
        DocumentOf::from_der(&message.to_der()?)
    }

    /// The document of a proved message, which is written once.
    pub(crate) fn written<'a, T: proved::EncodeValue + proved::Sequence<'a>>(message: &T) -> Result<DocumentOf<S>> {
        Ok(DocumentOf(proved::DocumentOf::encode_msg(Global, message)?))
    }

    /// The same document.
    /// # Errors
    /// `OutOfMemory`.
    pub fn try_clone(&self) -> Result<DocumentOf<S>> {
        DocumentOf::from_der(self.as_bytes())
    }

    /// Copies the bytes into a document.
    /// # Errors
    /// They aren't one SEQUENCE, or there is no memory.
    pub fn from_der(bytes: &[u8]) -> Result<DocumentOf<S>> {
        Ok(DocumentOf(proved::DocumentOf::from_der(Global, bytes)?))
    }

    /// Reads the document in a file.
    /// # Errors
    /// The file can't be read, or isn't one SEQUENCE.
    #[cfg(feature = "std")]
    pub fn read_der_file(path: impl AsRef<std::path::Path>) -> core::result::Result<DocumentOf<S>, FileError> {
        let path = Path(path.as_ref());
        Ok(DocumentOf(Host::run(false, |files| proved::DocumentOf::read_der_file(files, Global, path))?))
    }

    #[cfg(feature = "std")]
    fn write_file(&self, is_secret: bool, path: &std::path::Path) -> core::result::Result<(), FileError> {
        Host::run(is_secret, |files| self.0.write_der_file(files, Path(path)))
    }
}

impl Document {
    /// A copy of the encoding.
    /// # Panics
    /// There is no memory.
    #[must_use]
    pub fn to_vec(&self) -> Vec<u8> {
        List::from_slice(Global, self.as_bytes()).expect("no memory was found").into()
    }

    /// Writes the document to a file, which is created or truncated.
    /// # Errors
    /// The file can't be written.
    #[cfg(feature = "std")]
    pub fn write_der_file(&self, path: impl AsRef<std::path::Path>) -> core::result::Result<(), FileError> {
        self.write_file(false, path.as_ref())
    }
}

impl SecretDocument {
    /// Writes the document to a file, which is created or truncated. On Unix only the owner may read and write a file
    /// that is created, as its mode is 600. That of an old file stays.
    /// # Errors
    /// The file can't be written.
    #[cfg(feature = "std")]
    pub fn write_der_file(&self, path: impl AsRef<std::path::Path>) -> core::result::Result<(), FileError> {
        self.write_file(true, path.as_ref())
    }
}

impl<S> AsRef<[u8]> for DocumentOf<S> {
    fn as_ref(&self) -> &[u8] {
        self.as_bytes()
    }
}

impl<S> TryFrom<&[u8]> for DocumentOf<S> {
    type Error = Error;

    fn try_from(bytes: &[u8]) -> Result<DocumentOf<S>> {
        DocumentOf::from_der(bytes)
    }
}

impl<S> TryFrom<Vec<u8>> for DocumentOf<S> {
    type Error = Error;

    /// Copies the bytes into a document.
    fn try_from(bytes: Vec<u8>) -> Result<DocumentOf<S>> {
        DocumentOf::from_der(&bytes)
    }
}

cloned! { {S} DocumentOf<S>; }

impl fmt::Debug for Document {
    fn fmt(&self, f: &mut fmt::Formatter<'_>) -> fmt::Result {
        self.0.fmt(f)
    }
}

impl fmt::Debug for SecretDocument {
    /// Prints the name of the type alone.
    fn fmt(&self, f: &mut fmt::Formatter<'_>) -> fmt::Result {
        self.0.fmt(f)
    }
}
