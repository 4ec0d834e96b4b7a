// Made of crates/pkcs1_program/src/answer.rt by tools/erase/erase.py, and not to be edited.
//! The output for a line.

use crate::rattle_std::prelude::Vec;
use crate::tool::pkcs1_program::keys::{answer_p8, answer_priv, answer_pub};
use crate::tool::pkcs1_program::parameter_answers::{answer_parameters, answer_same, answer_spell, answer_strict};
use crate::tool::pkcs1_program::request::{Encodings, PairWord, Request, Word, request_of};
use crate::proved::pkcs1::{RsaOaepParamsRef, RsaPssParamsRef};
use crate::rattle_std::alloc::{AllocError, Global};

/// Appends the output for a word with one encoding to `out`. `buffer` may hold anything.
fn answer_word(
    alloc: Global,
    word: Word,
    encoding: &[u8],
    buffer: &mut Vec<u8>,
    out: &mut Vec<u8>,
) -> Result<(), AllocError> {
    match word {
        Word::Pub => answer_pub(encoding, out),
        Word::Priv => answer_priv(encoding, out),
        Word::Pss => answer_parameters::<RsaPssParamsRef<'_>>(encoding, buffer, out),
        Word::Oaep => answer_parameters::<RsaOaepParamsRef<'_>>(encoding, buffer, out),
        Word::P8 => answer_p8(encoding, out),
        Word::SpellPss => answer_spell::<RsaPssParamsRef<'_>>(alloc, b"spell-pss", encoding, out),
        Word::SpellOaep => answer_spell::<RsaOaepParamsRef<'_>>(
            alloc,
            b"spell-oaep",
            encoding,
            out,
        ),
        Word::StrictPss => answer_strict::<RsaPssParamsRef<'_>>(b"strict-pss", encoding, out),
        Word::StrictOaep => answer_strict::<RsaOaepParamsRef<'_>>(b"strict-oaep", encoding, out),
    }
}

/// Appends the output for a word with two encodings to `out`.
fn answer_pair(
    word: PairWord,
    first: &[u8],
    second: &[u8],
    out: &mut Vec<u8>,
) -> Result<(), AllocError> {
    match word {
        PairWord::SamePss => answer_same::<RsaPssParamsRef<'_>>(b"same-pss", first, second, out),
        PairWord::SameOaep => answer_same::<RsaOaepParamsRef<'_>>(b"same-oaep", first, second, out),
    }
}

/// Appends the output for a line, without a line feed, to `out`. The only error is out of memory. `encodings` may hold
/// anything; it is only a buffer.
pub fn answer_line(
    alloc: Global,
    line: &[u8],
    encodings: &mut Encodings,
    out: &mut Vec<u8>,
) -> Result<(), AllocError> {
    let request = request_of(line, encodings)?;
    let first = encodings.first.as_slice();
    match request {
        Request::BadLine => out.extend_from_slice(b"bad line"),
        Request::Word(word) => answer_word(alloc, word, first, &mut encodings.second, out),
        Request::Pair(word) => answer_pair(word, first, encodings.second.as_slice(), out),
    }
}
