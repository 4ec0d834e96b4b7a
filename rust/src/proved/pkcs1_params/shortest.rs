// Made of crates/pkcs1_params/src/shortest.rt by tools/erase/erase.py, and not to be edited.
//! Parameters as their shortest encoding.

use crate::proved::pkcs1_params::contents::{append_contents, check_contents, prepend_contents};
use crate::proved::pkcs1_params::spelling::{EncodeParams, non_defaults_in};
use crate::proved::der_core::{Contents, EncodeValue, Prepend, Result, SequenceTag, TaggedBy, Writer};
use crate::proved::spki_core::{AlgorithmView, AssociatedOid, IdentifierValue, IdentifierView};

/// Borrowed parameters, which are written as their shortest encoding. Which fields differ from their defaults is found
/// out once, so that octets which change meanwhile don't change how many are written.
pub struct Shortest<T: EncodeParams> {
    /// The parameters.
    pub(crate) params: T,
    pub(crate) non_defaults: u8,
}

impl<T: EncodeParams> Shortest<T> {
    /// The wrapper of these parameters.
    #[inline(always)]
    #[must_use]
    pub fn of(params: T) -> Shortest<T> {
        Shortest {
            params,
            non_defaults: non_defaults_in(params),
        }
    }

    /// The algorithm identifier of D with these parameters, which may always be encoded.
    #[inline(always)]
    #[must_use]
    pub fn identified<D: AssociatedOid>(params: T) -> AlgorithmView<'static, Shortest<T>> {
        params.lemma_is_valid();
        AlgorithmView {
            oid: IdentifierView::named::<D>(),
            parameters: Some(Shortest::of(params)),
        }
    }
}

impl<T: EncodeParams> Contents for Shortest<T> {}

impl<T: EncodeParams> TaggedBy for Shortest<T> {
    type Marker = SequenceTag;
}

impl<T: EncodeParams> EncodeValue for Shortest<T> {
    #[inline(always)]
    fn check_value(&self) -> Result<()> {
        check_contents(self.params, 0)
    }

    #[inline(always)]
    fn prepend_value<W: Prepend>(&self, writer: &mut W) {
        prepend_contents(self.params, self.non_defaults, 0, writer);
    }

    fn append_value<W: Writer>(&self, writer: &mut W) -> Result<()> {
        append_contents(self.params, self.non_defaults, 0, writer)
    }
}
