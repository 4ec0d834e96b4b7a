//! Traits for keys of any type, and documents of keys.

use crate::Result;
#[cfg(feature = "alloc")]
use crate::keys::{RsaPrivateKey, RsaPublicKey};
#[cfg(feature = "alloc")]
use der::asn1::{Uint, UintRef};
#[cfg(feature = "pem")]
use der::pem::{LineEnding, PemLabel};
#[cfg(feature = "alloc")]
use der::{Document, SecretDocument};
#[cfg(feature = "std")]
use std::path::Path;

/// The document of a key, which a proved function writes.
#[cfg(feature = "alloc")]
macro_rules! document {
    ($key:ty, $document:ident $encode:ident) => {
        impl TryFrom<&$key> for $document {
            type Error = crate::Error;

            fn try_from(key: &$key) -> Result<Self> {
                Ok($document::try_from(crate::coding::Whole::written(key)?.octets())?)
            }
        }

        impl TryFrom<$key> for $document {
            type Error = crate::Error;

            fn try_from(key: $key) -> Result<Self> {
                (&key).try_into()
            }
        }

        impl $encode for $key {
            fn to_pkcs1_der(&self) -> Result<$document> {
                self.try_into()
            }
        }
    };
}

/// The traits of a key.
macro_rules! traits {
    ($($what:literal, $decode:ident $encode:ident $key:ident $document:ident, $label:literal $text:ty;)*) => { $(
        #[doc = concat!("A ", $what, " key that is read from PKCS #1.")]
        pub trait $decode: Sized {
            /// Decodes a key from the whole slice. If that isn't one whole encoding of a key, it is an error.
            fn from_pkcs1_der(bytes: &[u8]) -> Result<Self>;

            /// Decodes a key in PEM of that label.
            #[cfg(feature = "pem")]
            fn from_pkcs1_pem(text: &str) -> Result<Self> {
                let (label, document) = $document::from_pem(text)?;
                $key::<()>::validate_pem_label(label)?;
                Self::from_pkcs1_der(document.as_bytes())
            }

            /// Decodes the key in a file.
            #[cfg(feature = "std")]
            fn read_pkcs1_der_file(path: impl AsRef<Path>) -> Result<Self> {
                Self::from_pkcs1_der($document::read_der_file(path)?.as_bytes())
            }

            /// Decodes the key in PEM of that label in a file.
            #[cfg(all(feature = "pem", feature = "std"))]
            fn read_pkcs1_pem_file(path: impl AsRef<Path>) -> Result<Self> {
                let (label, document) = $document::read_pem_file(path)?;
                $key::<()>::validate_pem_label(&label)?;
                Self::from_pkcs1_der(document.as_bytes())
            }
        }

        #[doc = concat!("A ", $what, " key that is written in PKCS #1.")]
        #[cfg(feature = "alloc")]
        pub trait $encode {
            /// The encoding of the key. If it has none, it is an error.
            fn to_pkcs1_der(&self) -> Result<$document>;

            /// The key in PEM.
            #[cfg(feature = "pem")]
            fn to_pkcs1_pem(&self, ending: LineEnding) -> Result<$text> {
                Ok(self.to_pkcs1_der()?.to_pem($label, ending)?)
            }

            /// Writes the encoding to a file.
            #[cfg(feature = "std")]
            fn write_pkcs1_der_file(&self, path: impl AsRef<Path>) -> Result<()> {
                Ok(self.to_pkcs1_der()?.write_der_file(path)?)
            }

            /// Writes the key in PEM to a file.
            #[cfg(all(feature = "pem", feature = "std"))]
            fn write_pkcs1_pem_file(&self, path: impl AsRef<Path>, ending: LineEnding) -> Result<()> {
                Ok(self.to_pkcs1_der()?.write_pem_file(path, $label, ending)?)
            }
        }

        #[cfg(feature = "alloc")]
        document! { $key<UintRef<'_>>, $document $encode }
        #[cfg(feature = "alloc")]
        document! { $key<Uint>, $document $encode }

        #[cfg(feature = "alloc")]
        impl $decode for $key<Uint> {
            fn from_pkcs1_der(bytes: &[u8]) -> Result<Self> {
                bytes.try_into()
            }
        }

        #[cfg(feature = "pem")]
        impl<U> PemLabel for $key<U> {
            const PEM_LABEL: &'static str = $label;
        }
    )* };
}
traits! {
    "private", DecodeRsaPrivateKey EncodeRsaPrivateKey RsaPrivateKey SecretDocument,
        "RSA PRIVATE KEY" der::zeroize::Zeroizing<alloc::string::String>;
    "public", DecodeRsaPublicKey EncodeRsaPublicKey RsaPublicKey Document, "RSA PUBLIC KEY" alloc::string::String;
}
