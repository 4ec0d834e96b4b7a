// Made of crates/pkcs1_program/src/parameter_answers.rt by tools/erase/erase.py, and not to be edited.
//! What is answered to a line with parameters, for each word: `answer.rt` calls it. How parameters are read and printed
//! is in `parameter_text.rt`.

use crate::rattle_std::prelude::Vec;
use crate::tool::pkcs1_program::digits::{put_field, put_number};
use crate::tool::pkcs1_program::parameter_text::Parameters;
use crate::tool::pkcs1_program::verdict::{put_refused, put_verdict};
use crate::rattle_std::alloc::{AllocError, Global};

/// Appends the output for `pss` or `oaep` to `out`. `buffer` may hold anything.
pub fn answer_parameters<'a, T: Parameters<'a>>(
    encoding: &'a [u8],
    buffer: &mut Vec<u8>,
    out: &mut Vec<u8>,
) -> Result<(), AllocError> {
    match T::read(encoding) {
        Some(params) => {
            buffer.resize(encoding.len(), 0)?;
            match params.encode_to_slice(buffer.as_mut_slice()) {
                Ok(again) => params.put(params.defaults(), again, out),
                Err(_) => unreachable!(),
            }
        }
        None => put_refused(out),
    }
}

/// Appends a space and each encoding to `out`, in order.
fn put_encodings(encodings: &[Vec<u8>], out: &mut Vec<u8>) -> Result<(), AllocError> {
    for encoding in encodings {
        put_field(b" ", encoding.as_slice(), out)?;
    }
    Ok(())
}

/// Appends to `out` the word, the number of encodings, and each of them.
fn put_spellings(word: &[u8], encodings: &[Vec<u8>], out: &mut Vec<u8>) -> Result<(), AllocError> {
    out.extend_from_slice(word)?;
    put_number(b" ", encodings.len(), out)?;
    put_encodings(encodings, out)
}

/// Appends to `out` all encodings of the parameters that `encoding` means, ordered by mask.
pub fn answer_spell<'a, T: Parameters<'a>>(
    alloc: Global,
    word: &[u8],
    encoding: &'a [u8],
    out: &mut Vec<u8>,
) -> Result<(), AllocError> {
    let Some(params) = T::read(encoding) else {
        return put_refused(out);
    };
    match params.all_encodings(alloc)? {
        Some(encodings) => put_spellings(word, encodings.as_slice(), out),
        None => put_refused(out),
    }
}

/// Appends to `out` whether `encoding` is the shortest encoding of the parameters that it means.
pub fn answer_strict<'a, T: Parameters<'a>>(
    word: &[u8],
    encoding: &'a [u8],
    out: &mut Vec<u8>,
) -> Result<(), AllocError> {
    match T::read(encoding) {
        Some(_params) => put_verdict(word, T::is_strict(encoding), out),
        None => put_refused(out),
    }
}

/// Appends to `out` whether both encodings mean the same parameters.
pub fn answer_same<'a, T: Parameters<'a>>(
    word: &[u8],
    first: &'a [u8],
    second: &'a [u8],
    out: &mut Vec<u8>,
) -> Result<(), AllocError> {
    match (T::read(first), T::read(second)) {
        (Some(params), Some(others)) => put_verdict(word, params.is_same(&others), out),
        _ => put_refused(out),
    }
}
