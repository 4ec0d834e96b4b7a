// Made of crates/der_core/src/document.rt by tools/erase/erase.py, and not to be edited.
//! Documents: whole SEQUENCEs, whose contents aren't looked at.

use crate::rattle_std::prelude::{Vec, vec};
use crate::proved::der_core::back_writer::BackWriter;
use crate::proved::der_core::decode::{Decode, DecodeValue};
use crate::proved::der_core::encode::{Encode, EncodeValue};
use crate::proved::der_core::error::{Error, ErrorKind, Result};
use crate::proved::der_core::file_system::FileSystem;
use crate::proved::der_core::grammar::{Contents, FixedTag, Sequence, SequenceTag, TaggedBy};
use crate::proved::der_core::length::Length;
use crate::proved::der_core::memory::{NoMemory, copy_of};
use crate::proved::der_core::source_sink::{Close, Sink, Source};
use crate::proved::der_core::transfer::{read_all, write_all};
use crate::rattle_std::alloc::Global;
use crate::rattle_std::fmt;
use crate::rattle_std::marker::PhantomData;
use crate::rattle_std::path::Path;

/// Some SEQUENCE, whose contents aren't kept.
struct AnySequence;

impl Contents for AnySequence {}

impl TaggedBy for AnySequence {
    type Marker = SequenceTag;
}

impl<'a> DecodeValue<&'a [u8], NoMemory> for AnySequence {
    fn read_value(_memory: NoMemory, _contents: &'a [u8]) -> Result<AnySequence> {
        Ok(AnySequence)
    }
}

/// Writes the encoding of a message, which has to have one within `Length::MAX`, over a slice of just its length.
pub fn write_over<T: EncodeValue + FixedTag>(message: &T, out: &mut [u8]) {
    let mut writer = BackWriter::new(out);
    message.prepend(&mut writer);
}

/// Does nothing: its contract says that bytes are octets.
fn lemma_are_bytes(bytes: &[u8]) {}

/// Marks documents that may be printed and compared.
#[derive(PartialEq, Eq, Hash)]
pub struct Open;

/// Marks secret documents: they can't be compared, and their `Debug` shows no byte.
pub struct Secret;

/// One whole SEQUENCE, of at most `Length::MAX` bytes, whatever its contents are. `S` says whether it is open or
/// secret: what is said of a `Document` is said of a `SecretDocument` too.
#[derive(PartialEq, Eq, Hash)]
pub struct DocumentOf<S> {
    bytes: Vec<u8>,
    secrecy: PhantomData<S>,
}

/// One whole SEQUENCE, of at most `Length::MAX` bytes.
pub type Document = DocumentOf<Open>;

/// One whole SEQUENCE, of at most `Length::MAX` bytes, that is secret: `Debug` shows none of its bytes, it can't be
/// compared, and it isn't accepted where a `Document` is expected.
pub type SecretDocument = DocumentOf<Secret>;

impl<S> DocumentOf<S> {
    /// Copies the bytes. Ok only if they are a document: then it holds these bytes. Err: their first fault, or
    /// `OutOfMemory`, which is returned only if they are a document.
    pub fn from_der(alloc: Global, bytes: &[u8]) -> Result<DocumentOf<S>> {
        AnySequence::from_der(NoMemory, bytes)?;
        Ok(DocumentOf {
            bytes: copy_of(alloc, bytes)?,
            secrecy: PhantomData,
        })
    }

    /// Encodes a message. Ok: the document holds its shortest encoding. `Value` exactly if the message has no
    /// encoding, with a tag that the type refuses. `Overflow` exactly if it has encodings, but none within
    /// `Length::MAX`. `OutOfMemory` is returned only if one is within that.
    pub fn encode_msg<'a, T: EncodeValue + Sequence<'a>>(
        alloc: Global,
        message: &T,
    ) -> Result<DocumentOf<S>> {
        let length = message.encoded_len()?.to_usize();
        let mut bytes = vec![in alloc; 0u8; length]?;
        write_over(message, bytes.as_mut_slice());
        lemma_are_bytes(bytes.as_slice());
        Ok(DocumentOf {
            bytes,
            secrecy: PhantomData,
        })
    }

    /// The whole encoding: the bytes of one SEQUENCE, at most `Length::MAX`.
    #[must_use]
    pub fn as_bytes(&self) -> &[u8] {
        self.bytes.as_slice()
    }

    /// How many bytes the encoding has.
    #[must_use]
    pub fn len(&self) -> Length {
        Length::of(self.bytes.len())
    }

    /// Reads a source to its end. Ok: the document is all that the source gave, and no call of the source failed. Err:
    /// - `File`: one call of the source failed. After each other error none did.
    /// - `OutOfMemory`: at least one byte came, and no more than `Length::MAX`.
    /// - `Overflow`: more bytes came than `Length::MAX`, by at most 65536.
    /// - Otherwise the first fault of all that the source gave, which may be `Overflow` too.
    ///
    /// It returns even if the source never ends. What was read before an error is lost.
    pub fn read_from<R: Source>(alloc: Global, source: &mut R) -> Result<DocumentOf<S>> {
        let bytes = read_all(alloc, source, Length::MAX)?;
        AnySequence::from_der(NoMemory, bytes.as_slice())?;
        Ok(DocumentOf {
            bytes,
            secrecy: PhantomData,
        })
    }

    /// Writes all bytes to the sink, in order. Ok: it took them all, is flushed, and no call of it failed. Err: it is
    /// `File`, one call of the sink failed, and the sink took a beginning of the bytes. Nothing is allocated.
    pub fn write_to<W: Sink>(&self, sink: &mut W) -> Result<()> {
        write_all(self.bytes.as_slice(), sink)
    }

    /// Reads the document in a file. Ok: it is all that the file opened at this path gave, from its opening to its
    /// end. Err: `File` if the file can't be opened, else as of `read_from`. It is never `NoRoom`.
    pub fn read_der_file<F: FileSystem>(
        files: &mut F,
        alloc: Global,
        path: Path<'_>,
    ) -> Result<DocumentOf<S>> {
        let mut source = files.open(path)?;
        DocumentOf::read_from(alloc, &mut source)
    }

    /// Creates the file, or truncates an old one, writes the document, and closes the file. Ok: the file took exactly
    /// the document, from its creation until it was closed, and was flushed. Err: it is `File`. Either the file can't
    /// be created, or one call of it failed, and it was closed when it had taken a beginning of the bytes.
    pub fn write_der_file<F: FileSystem>(&self, files: &mut F, path: Path<'_>) -> Result<()> {
        let mut sink = files.create(path)?;
        let written = self.write_to(&mut sink);
        sink.close();
        written
    }
}

impl fmt::Debug for DocumentOf<Open> {
    /// Prints the bytes.
    fn fmt(&self, f: &mut fmt::Formatter<'_>) -> fmt::Result {
        f.debug_struct("Document")
            .field("bytes", &self.bytes)
            .finish()
    }
}

impl fmt::Debug for DocumentOf<Secret> {
    /// Prints the name of the type, and no byte.
    fn fmt(&self, f: &mut fmt::Formatter<'_>) -> fmt::Result {
        f.debug_struct("SecretDocument").finish_non_exhaustive()
    }
}
