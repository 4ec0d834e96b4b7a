// Made of crates/pkcs1/src/traits.rt by tools/erase/erase.py, and not to be edited.
//! Traits for keys of any type: PKCS #1 encodings decoded and written, in memory and in files.

use crate::proved::pkcs1::private_key::RsaPrivateKey;
use crate::proved::pkcs1::private_key::other_prime_info::require_listed;
use crate::proved::pkcs1::public_key::RsaPublicKey;
use crate::proved::der_core::{
    Decode, Document, Encode, ErrorKind, FileSystem, SecretDocument, Uint, UintEncoding,
};
use crate::proved::pkcs1_params::Result;
use crate::rattle_std::alloc::Global;
use crate::rattle_std::path::Path;

/// A private key that can be decoded from its PKCS #1 encoding (RFC 8017 A.1.2). A caller's own type says by
/// `stands_for` how a key relates to the bytes that it was read from, and by `rejected_by` which bytes an error
/// rejects.
pub trait DecodeRsaPrivateKey: Sized {
    /// Reads a key from the whole slice. Ok: the key stands for the slice. Err: the type rejects the slice with this
    /// error.
    fn from_pkcs1_der(alloc: Global, bytes: &[u8]) -> Result<Self>;

    /// Reads the document that a file holds, and calls `from_pkcs1_der` on its bytes. Ok: the key stands for a
    /// document, which is all that the file opened at this path gave. Err: as of `Document::read_der_file`, so `File`
    /// if the file can't be opened or read, and `Overflow` if it has more bytes than `Length::MAX`; or the file gave a
    /// document that the type rejects with this error.
    fn read_pkcs1_der_file<F: FileSystem>(
        files: &mut F,
        alloc: Global,
        path: Path<'_>,
    ) -> Result<Self> {
        let document = SecretDocument::read_der_file(files, alloc, path)?;
        Self::from_pkcs1_der(alloc, document.as_bytes())
    }
}

/// A public key that can be decoded from its PKCS #1 encoding (RFC 8017 A.1.1). A caller's own type says by
/// `stands_for` how a key relates to the bytes that it was read from, and by `rejected_by` which bytes an error
/// rejects.
pub trait DecodeRsaPublicKey: Sized {
    /// Reads a key from the whole slice. Ok: the key stands for the slice. Err: the type rejects the slice with this
    /// error.
    fn from_pkcs1_der(alloc: Global, bytes: &[u8]) -> Result<Self>;

    /// Reads the document that a file holds, and calls `from_pkcs1_der` on its bytes. Ok: the key stands for a
    /// document, which is all that the file opened at this path gave. Err: as of `Document::read_der_file`, so `File`
    /// if the file can't be opened or read, and `Overflow` if it has more bytes than `Length::MAX`; or the file gave a
    /// document that the type rejects with this error.
    fn read_pkcs1_der_file<F: FileSystem>(
        files: &mut F,
        alloc: Global,
        path: Path<'_>,
    ) -> Result<Self> {
        let document = Document::read_der_file(files, alloc, path)?;
        Self::from_pkcs1_der(alloc, document.as_bytes())
    }
}

/// A private key that can be written as its PKCS #1 encoding (RFC 8017 A.1.2). A caller's own type says by `written_as`
/// how a key relates to its bytes, and by `unwritten_by` which keys an error rejects.
pub trait EncodeRsaPrivateKey {
    /// Makes the encoding of the key. Ok: the key is written as what the document holds. Err: the type rejects the key
    /// with this error.
    fn to_pkcs1_der(&self, alloc: Global) -> Result<SecretDocument>;

    /// Writes the encoding of the key to a file. Ok: the key is written as a document, which the file took, as of
    /// `Document::write_der_file`. Err: the type rejects the key with this error, and no file was created or truncated;
    /// or it is `File`, and the file refused that document. A failed write may leave a beginning.
    fn write_pkcs1_der_file<F: FileSystem>(
        &self,
        files: &mut F,
        alloc: Global,
        path: Path<'_>,
    ) -> Result<()> {
        let secret = self.to_pkcs1_der(alloc)?;
        Ok(secret.write_der_file(files, path)?)
    }
}

/// A public key that can be written as its PKCS #1 encoding (RFC 8017 A.1.1). A caller's own type says by `written_as`
/// how a key relates to its bytes, and by `unwritten_by` which keys an error rejects.
pub trait EncodeRsaPublicKey {
    /// Makes the encoding of the key. Ok: the key is written as what the document holds. Err: the type rejects the key
    /// with this error.
    fn to_pkcs1_der(&self, alloc: Global) -> Result<Document>;

    /// Writes the encoding of the key to a file. Ok: the key is written as a document, which the file took, as of
    /// `Document::write_der_file`. Err: the type rejects the key with this error, and no file was created or truncated;
    /// or it is `File`, and the file refused that document. A failed write may leave a beginning.
    fn write_pkcs1_der_file<F: FileSystem>(
        &self,
        files: &mut F,
        alloc: Global,
        path: Path<'_>,
    ) -> Result<()> {
        let document = self.to_pkcs1_der(alloc)?;
        Ok(document.write_der_file(files, path)?)
    }
}

impl DecodeRsaPrivateKey for RsaPrivateKey<Uint> {
    /// Reads a private key, as `decode_owned_key` does.
    fn from_pkcs1_der(alloc: Global, bytes: &[u8]) -> Result<RsaPrivateKey<Uint>> {
        RsaPrivateKey::<Uint>::decode_owned_key(alloc, bytes)
    }
}

impl DecodeRsaPublicKey for RsaPublicKey<Uint> {
    /// Reads a public key, whose numbers it copies. Ok only if the whole slice encodes one: then that key. Err: the
    /// first fault of a public key, or `OutOfMemory`, which comes only if the slice begins with a SEQUENCE that begins
    /// with a number.
    fn from_pkcs1_der(alloc: Global, bytes: &[u8]) -> Result<RsaPublicKey<Uint>> {
        Ok(RsaPublicKey::from_der(alloc, bytes)?)
    }
}

impl<U: Encode + UintEncoding> EncodeRsaPrivateKey for RsaPrivateKey<U> {
    /// Makes a document that holds the key's only encoding. `Value` of SEQUENCE exactly if the list of other primes is
    /// there but empty, which is looked at first. `Overflow` exactly if the encoding is longer than `Length::MAX`.
    /// Memory runs out only if there is an encoding that isn't.
    fn to_pkcs1_der(&self, alloc: Global) -> Result<SecretDocument> {
        require_listed(&self.other_prime_infos)?;
        Ok(SecretDocument::encode_msg(alloc, self)?)
    }
}

impl<U: UintEncoding> EncodeRsaPublicKey for RsaPublicKey<U> {
    /// Makes a document that holds the key's only encoding. `Overflow` exactly if that is longer than `Length::MAX`.
    /// Memory runs out only if it isn't.
    fn to_pkcs1_der(&self, alloc: Global) -> Result<Document> {
        Ok(Document::encode_msg(alloc, &self.as_key_ref())?)
    }
}
