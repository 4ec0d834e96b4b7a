// Made of crates/pkcs1_params/src/listing.rt by tools/erase/erase.py, and not to be edited.
//! The list of all spellings of parameters, by their masks.

use crate::rattle_std::prelude::Vec;
use crate::proved::pkcs1_params::error::Result;
use crate::proved::pkcs1_params::spelling::{EncodeParams, Spelling, count_defaults, non_defaults_in};
use crate::rattle_std::alloc::Global;

/// The encodings under the masks below `count`, in order.
fn encodings_under<T: EncodeParams>(
    params: T,
    non_defaults: u8,
    count: u8,
    alloc: Global,
) -> crate::proved::der_core::Result<Vec<Vec<u8>>> {
    let mut encodings = Vec::new_in(alloc);
    for mask in 0..count {
        let spelling = Spelling {
            params,
            non_defaults,
            mask,
        };
        encodings.push(spelling.to_vec(alloc)?)?;
    }
    Ok(encodings)
}

/// All spellings, by mask: `Overflow`, before anything is allocated, if the one with every field is too long.
pub(crate) fn all_spellings<T: EncodeParams>(params: T, alloc: Global) -> Result<Vec<Vec<u8>>> {
    params.lemma_is_valid();
    let count = 1u8 << count_defaults(params);
    let non_defaults = non_defaults_in(params);
    let longest = Spelling {
        params,
        non_defaults,
        mask: count - 1,
    };
    longest.len()?;
    Ok(encodings_under(params, non_defaults, count, alloc)?)
}
