// Made of crates/pkcs1_params/src/pss_spelling.rt by tools/erase/erase.py, and not to be edited.
//! The fields and the spellings of RSASSA-PSS parameters.

use crate::rattle_std::prelude::Vec;
use crate::proved::pkcs1_params::error::Result;
use crate::proved::pkcs1_params::fields::{FieldRef, FieldThen, NoField};
use crate::proved::pkcs1_params::hash_fields::{MaskGenOf, is_same_mask, uses_hash};
use crate::proved::pkcs1_params::holders::{MaskHolder, PlainHolder};
use crate::proved::pkcs1_params::listing::all_spellings;
use crate::proved::pkcs1_params::pss::{PssParamsOf, RsaPssParamsRef};
use crate::proved::pkcs1_params::spelling::{EncodeParams, count_defaults};
use crate::proved::pkcs1_params::trailer_field::TrailerField;
use crate::proved::spki_core::{AlgorithmIdentifierOf, AnyValue, AssociatedOid, IdentifierValue};
use crate::rattle_std::alloc::Global;

/// A field and the later ones.
type Then<'b, O, P, L> = FieldThen<'b, AlgorithmIdentifierOf<O, P>, MaskGenOf<O, P>, L>;

type PssFields<'b, O, P> = Then<'b, O, P, Then<'b, O, P, Then<'b, O, P, Then<'b, O, P, NoField>>>>;

impl<'b, O: IdentifierValue, P: AnyValue> EncodeParams for &'b PssParamsOf<O, P> {
    type Fields = PssFields<'b, O, P>;

    fn fields(self) -> PssFields<'b, O, P> {
        FieldThen {
            first: FieldRef::Hash(&self.hash),
            later: FieldThen {
                first: FieldRef::MaskGen(&self.mask_gen),
                later: FieldThen {
                    first: FieldRef::SaltLen(self.salt_len),
                    later: FieldThen {
                        first: FieldRef::Trailer(self.trailer_field),
                        later: NoField,
                    },
                },
            },
        }
    }

    fn lemma_is_valid(self) {
        let _salt_len = self.salt_len;
    }
}

impl<O: IdentifierValue, P: AnyValue> PssParamsOf<O, P> {
    /// Whether the hash function is D, and the mask generation function is MGF1 with D: each of them by `is_hash`, so
    /// with NULL or without parameters.
    #[must_use]
    pub fn uses_hash<D: AssociatedOid>(&self) -> bool {
        uses_hash::<D, O, P>(&self.hash, &self.mask_gen)
    }

    /// Whether both mean the same: all fields are equal, where a hash function with NULL and one without parameters are
    /// alike, in the mask generation function too. `==` tells these apart.
    #[must_use]
    pub fn means_same<Q: IdentifierValue, R: AnyValue>(&self, other: &PssParamsOf<Q, R>) -> bool {
        self.hash.is_same_hash(&other.hash)
            && is_same_mask(&self.mask_gen, &other.mask_gen)
            && self.salt_len == other.salt_len
            && self.trailer_field == other.trailer_field
    }

    /// How many fields equal their defaults.
    #[must_use]
    pub fn default_fields(&self) -> u8 {
        count_defaults(self)
    }

    /// All encodings of the parameters, each at the index that is its mask, none twice, so the shortest is the first:
    /// two to the number of default fields. Ok only if the one with every field is no longer than `Length::MAX`. Err:
    /// `Overflow` exactly if it is longer, before anything is allocated; else `OutOfMemory`.
    pub fn spellings(&self, alloc: Global) -> Result<Vec<Vec<u8>>> {
        all_spellings(self, alloc)
    }
}
