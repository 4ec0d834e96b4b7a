//! Traits for keys of any type.

#[cfg(feature = "std")]
use crate::FileError;
#[cfg(feature = "alloc")]
use crate::der::{Document, SecretDocument};
use crate::{Result, RsaPrivateKeyOwned, RsaPublicKeyOwned};
#[cfg(feature = "alloc")]
use crate::{RsaPrivateKey, RsaPublicKey, values::Number};

/// A private key that can be decoded from PKCS #1.
///
/// ```no_run
/// # #[cfg(feature = "std")] {
/// use pkcs1_proved::{DecodeRsaPrivateKey, EncodeRsaPrivateKey, RsaPrivateKeyOwned};
///
/// let key = RsaPrivateKeyOwned::read_pkcs1_der_file("key.der")?;
/// key.to_pkcs8_der()?.write_der_file("container.der")?;
/// key.write_pkcs1_der_file("copy.der")?;
/// # }
/// # Ok::<(), pkcs1_proved::Error>(())
/// ```
pub trait DecodeRsaPrivateKey: Sized {
    /// Decodes a key from the whole slice.
    /// # Errors
    /// The slice isn't one whole encoding of a key, or there is no memory.
    fn from_pkcs1_der(bytes: &[u8]) -> Result<Self>;

    /// Decodes the key in a file.
    /// # Errors
    /// The file can't be read, or `from_pkcs1_der` rejects it.
    #[cfg(feature = "std")]
    fn read_pkcs1_der_file(path: impl AsRef<std::path::Path>) -> core::result::Result<Self, FileError> {
        Ok(Self::from_pkcs1_der(SecretDocument::read_der_file(path)?.as_bytes())?)
    }
}

/// A public key that can be decoded from PKCS #1. A type of one's own may be one:
///
/// ```
/// use pkcs1_proved::{DecodeRsaPublicKey, Error, Result, RsaPublicKeyRef};
///
/// struct Modulus([u8; 256]);
///
/// impl DecodeRsaPublicKey for Modulus {
///     fn from_pkcs1_der(bytes: &[u8]) -> Result<Modulus> {
///         let key = RsaPublicKeyRef::try_from(bytes)?;
///         let octets = key.modulus.as_bytes().try_into().map_err(|_| Error::KeyMalformed)?;
///         Ok(Modulus(octets))
///     }
/// }
/// ```
pub trait DecodeRsaPublicKey: Sized {
    /// Decodes a key from the whole slice.
    /// # Errors
    /// The slice isn't one whole encoding of a key, or there is no memory.
    fn from_pkcs1_der(bytes: &[u8]) -> Result<Self>;

    /// Decodes the key in a file.
    /// # Errors
    /// The file can't be read, or `from_pkcs1_der` rejects it.
    #[cfg(feature = "std")]
    fn read_pkcs1_der_file(path: impl AsRef<std::path::Path>) -> core::result::Result<Self, FileError> {
        Ok(Self::from_pkcs1_der(Document::read_der_file(path)?.as_bytes())?)
    }
}

/// A private key that can be encoded in PKCS #1.
#[cfg(feature = "alloc")]
pub trait EncodeRsaPrivateKey {
    /// Returns the encoding of the key.
    /// # Errors
    /// The key has no encoding, or there is no memory for it.
    fn to_pkcs1_der(&self) -> Result<SecretDocument>;

    /// Writes the encoding of the key to a file, which is created or truncated: see
    /// [`SecretDocument::write_der_file`].
    /// # Errors
    /// As `to_pkcs1_der`, or the file can't be written.
    #[cfg(feature = "std")]
    fn write_pkcs1_der_file(&self, path: impl AsRef<std::path::Path>) -> core::result::Result<(), FileError> {
        self.to_pkcs1_der()?.write_der_file(path)
    }
}

/// A public key that can be encoded in PKCS #1.
#[cfg(feature = "alloc")]
pub trait EncodeRsaPublicKey {
    /// Returns the encoding of the key.
    /// # Errors
    /// The key has no encoding, or there is no memory for it.
    fn to_pkcs1_der(&self) -> Result<Document>;

    /// Writes the encoding of the key to a file, which is created or truncated.
    /// # Errors
    /// As `to_pkcs1_der`, or the file can't be written.
    #[cfg(feature = "std")]
    fn write_pkcs1_der_file(&self, path: impl AsRef<std::path::Path>) -> core::result::Result<(), FileError> {
        self.to_pkcs1_der()?.write_der_file(path)
    }
}

impl DecodeRsaPrivateKey for RsaPrivateKeyOwned {
    fn from_pkcs1_der(bytes: &[u8]) -> Result<RsaPrivateKeyOwned> {
        RsaPrivateKeyOwned::try_from(bytes)
    }
}

impl DecodeRsaPublicKey for RsaPublicKeyOwned {
    fn from_pkcs1_der(bytes: &[u8]) -> Result<RsaPublicKeyOwned> {
        RsaPublicKeyOwned::try_from(bytes)
    }
}

#[cfg(feature = "alloc")]
impl<U: Number> EncodeRsaPrivateKey for RsaPrivateKey<U> {
    fn to_pkcs1_der(&self) -> Result<SecretDocument> {
        SecretDocument::try_from(self)
    }
}

#[cfg(feature = "alloc")]
impl<U: Number> EncodeRsaPublicKey for RsaPublicKey<U> {
    fn to_pkcs1_der(&self) -> Result<Document> {
        Document::try_from(self)
    }
}
