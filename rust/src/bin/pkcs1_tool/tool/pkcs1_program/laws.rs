// Made of crates/pkcs1_program/src/laws.rt by tools/erase/erase.py, and not to be edited.
//! A law of outputs: a function that does nothing, with the law as its contract.

use crate::proved::pkcs1::{lemma_encodings_are_delimited, lemma_oaep_spellings, lemma_pss_spellings};
use crate::proved::pkcs8_core::lemma_containers_have_one_encoding;

/// A line has at most one output, and so has a list of lines.
pub fn lemma_answers_are_one() {
    lemma_encodings_are_delimited();
    lemma_containers_have_one_encoding();
    lemma_pss_spellings();
    lemma_oaep_spellings();
}
