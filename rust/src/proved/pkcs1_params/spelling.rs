// Made of crates/pkcs1_params/src/spelling.rt by tools/erase/erase.py, and not to be edited.
//! Spellings of parameters: a mask says which of their defaults are written.

use crate::rattle_std::prelude::{Vec, vec};
use crate::proved::pkcs1_params::contents::{append_contents, check_contents, prepend_contents};
use crate::proved::pkcs1_params::error::Result;
use crate::proved::pkcs1_params::fields::Fields;
use crate::proved::der_core::{
    Contents, Encode, EncodeValue, ErrorKind, Prepend, SequenceTag, TaggedBy, Writer, write_over,
};
use crate::rattle_std::alloc::Global;

/// Borrowed parameters: a SEQUENCE of fields with defaults.
pub trait EncodeParams: Copy {
    /// The fields, borrowed.
    type Fields: Fields;

    /// The fields, in order, of which there are at most 7.
    fn fields(self) -> Self::Fields;

    /// Does nothing: its contract says that the parameters may be encoded.
    fn lemma_is_valid(self);

    /// Writes the shortest encoding, in which no default is written, to the front of a slice, and returns its length.
    /// The bytes behind it stay as they were. After an error all of the slice does. It is `Overflow` exactly if the
    /// encoding is longer than `Length::MAX`, else `NoRoom` exactly if it is longer than the slice, and never `Value`.
    #[inline(always)]
    fn encode_params(self, out: &mut [u8]) -> Result<usize> {
        self.encode_spelling_into(0, out)
    }

    /// Writes the only encoding under this mask to the front of a slice, and returns its length. The bytes behind it
    /// stay as they were. After an error all of the slice does.
    /// Bit j of the mask (bit 0 is the lowest) says whether the j-th of the fields that equal their defaults, in their
    /// order, is written. Mask 0 gives the shortest. Requires that it is below 2^k, of k such fields. The error is
    /// `Overflow` exactly if the encoding is longer than `Length::MAX`, else `NoRoom` exactly if it is longer than the
    /// slice.
    fn encode_spelling_into(self, mask: u8, out: &mut [u8]) -> Result<usize> {
        self.lemma_is_valid();
        let spelling = Spelling {
            params: self,
            non_defaults: non_defaults_in(self),
            mask,
        };
        Ok(spelling.encode_into(out)?)
    }

    /// Writes the only encoding under this mask, as `encode_spelling_into` does, and returns the front of the slice that
    /// holds it. A caller that needs in a proof what the slice holds calls `encode_spelling_into`.
    fn encode_spelling<'b>(self, mask: u8, out: &'b mut [u8]) -> Result<&'b [u8]> {
        let written = self.encode_spelling_into(mask, out);
        front(out, written)
    }
}

/// The written front of a slice, or why nothing was written.
fn front<'b>(out: &'b [u8], written: Result<usize>) -> Result<&'b [u8]> {
    match written {
        Ok(length) => Ok(&out[..length]),
        Err(error) => Err(error),
    }
}

/// Parameters with a mask that says which of their defaults are written.
pub(crate) struct Spelling<T: EncodeParams> {
    pub(crate) params: T,
    pub(crate) non_defaults: u8,
    pub(crate) mask: u8,
}

impl<T: EncodeParams> Contents for Spelling<T> {}

impl<T: EncodeParams> TaggedBy for Spelling<T> {
    type Marker = SequenceTag;
}

impl<T: EncodeParams> EncodeValue for Spelling<T> {
    #[inline(always)]
    fn check_value(&self) -> crate::proved::der_core::Result<()> {
        check_contents(self.params, self.mask)
    }

    #[inline(always)]
    fn prepend_value<W: Prepend>(&self, writer: &mut W) {
        prepend_contents(self.params, self.non_defaults, self.mask, writer);
    }

    fn append_value<W: Writer>(&self, writer: &mut W) -> crate::proved::der_core::Result<()> {
        append_contents(self.params, self.non_defaults, self.mask, writer)
    }
}

/// Which fields differ from their defaults, as bits: bit j is that of field j.
#[inline(always)]
pub(crate) fn non_defaults_in<T: EncodeParams>(params: T) -> u8 {
    params.fields().non_defaults()
}

/// How many fields equal their defaults.
#[inline(always)]
pub(crate) fn count_defaults<T: EncodeParams>(params: T) -> u8 {
    params.fields().count_defaults()
}

impl<T: EncodeParams> Spelling<T> {
    /// The length of the encoding: `Overflow` if it is too long.
    pub(crate) fn len(&self) -> crate::proved::der_core::Result<usize> {
        self.params.lemma_is_valid();
        Ok(self.encoded_len()?.to_usize())
    }

    /// The encoding, in allocated memory.
    pub(crate) fn to_vec(&self, alloc: Global) -> crate::proved::der_core::Result<Vec<u8>> {
        self.params.lemma_is_valid();
        let length = self.len()?;
        let mut encoding = vec![in alloc; 0u8; length]?;
        write_over(self, encoding.as_mut_slice());
        Ok(encoding)
    }
}
