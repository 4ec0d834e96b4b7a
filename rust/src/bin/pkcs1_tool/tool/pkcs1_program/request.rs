// Made of crates/pkcs1_program/src/request.rt by tools/erase/erase.py, and not to be edited.
//! Parsing a line into a request.

use crate::rattle_std::prelude::Vec;
use crate::tool::pkcs1_program::lines::split_part;
use crate::rattle_std::alloc::{AllocError, Global};

/// The first part of a line with one HEX part.
#[derive(Clone, Copy)]
pub enum Word {
    Pub,
    Priv,
    Pss,
    Oaep,
    P8,
    SpellPss,
    SpellOaep,
    StrictPss,
    StrictOaep,
}

/// The first part of a line with two HEX parts.
#[derive(Clone, Copy)]
pub enum PairWord {
    SamePss,
    SameOaep,
}

/// What a line asks for. The bytes of its HEX parts are in an `Encodings`.
#[derive(Clone, Copy)]
pub enum Request {
    BadLine,
    Word(Word),
    Pair(PairWord),
}

/// Buffers for the bytes of a line's HEX parts. Kept from line to line, they allocate only for a part longer than those
/// before.
pub struct Encodings {
    /// The bytes of the first HEX part.
    pub first: Vec<u8>,
    /// The bytes of the second HEX part. Of a line with one part, it is only a buffer.
    pub second: Vec<u8>,
}

impl Encodings {
    /// Empty buffers; allocates nothing.
    pub(crate) fn new_in(alloc: Global) -> Encodings {
        Encodings {
            first: Vec::new_in(alloc),
            second: Vec::new_in(alloc),
        }
    }
}

/// The words of lines with one HEX part.
const WORDS: [(&[u8], Word); 9] = [
    (b"pub", Word::Pub),
    (b"priv", Word::Priv),
    (b"pss", Word::Pss),
    (b"oaep", Word::Oaep),
    (b"p8", Word::P8),
    (b"spell-pss", Word::SpellPss),
    (b"spell-oaep", Word::SpellOaep),
    (b"strict-pss", Word::StrictPss),
    (b"strict-oaep", Word::StrictOaep),
];

/// The words of lines with two HEX parts.
const PAIR_WORDS: [(&[u8], PairWord); 2] = [
    (b"same-pss", PairWord::SamePss),
    (b"same-oaep", PairWord::SameOaep),
];

/// The value beside the name in a list.
fn find_named<W: Copy>(rows: &[(&[u8], W)], name: &[u8]) -> Option<W> {
    for (other, value) in rows {
        if *other == name {
            return Some(*value);
        }
    }
    None
}

/// The word of a line with one HEX part.
fn word_of(part: &[u8]) -> Option<Word> {
    find_named(&WORDS, part)
}

/// The word of a line with two HEX parts.
fn pair_word_of(part: &[u8]) -> Option<PairWord> {
    find_named(&PAIR_WORDS, part)
}

/// Decodes hexadecimal digits into `encoding`. Returns false if they aren't an even number of digits; `encoding` may
/// then hold anything.
fn read_hex(hex: &[u8], encoding: &mut Vec<u8>) -> Result<bool, AllocError> {
    encoding.resize(hex.len() / 2, 0)?;
    Ok(crate::rattle_std::hex::decode_to_slice(hex, encoding.as_mut_slice()).is_ok())
}

/// The request of a word with one HEX part.
fn request_with(word: Word, hex: &[u8], encodings: &mut Encodings) -> Result<Request, AllocError> {
    if read_hex(hex, &mut encodings.first)? {
        Ok(Request::Word(word))
    } else {
        Ok(Request::BadLine)
    }
}

/// The request of a word with two HEX parts.
fn pair_request_with(
    word: PairWord,
    first: &[u8],
    second: &[u8],
    encodings: &mut Encodings,
) -> Result<Request, AllocError> {
    if read_hex(first, &mut encodings.first)? && read_hex(second, &mut encodings.second)? {
        Ok(Request::Pair(word))
    } else {
        Ok(Request::BadLine)
    }
}

/// Parses a line, and puts the bytes of its HEX parts into `encodings`. What follows the word isn't searched for a
/// further part, since a space is no digit.
pub fn request_of(line: &[u8], encodings: &mut Encodings) -> Result<Request, AllocError> {
    let (name, rest) = split_part(line);
    let Some(rest) = rest else {
        return Ok(Request::BadLine);
    };
    match word_of(name) {
        Some(word) => request_with(word, rest, encodings),
        None => match pair_word_of(name) {
            Some(word) => {
                let (first, second) = split_part(rest);
                match second {
                    Some(second) => pair_request_with(word, first, second, encodings),
                    None => Ok(Request::BadLine),
                }
            }
            None => Ok(Request::BadLine),
        },
    }
}
