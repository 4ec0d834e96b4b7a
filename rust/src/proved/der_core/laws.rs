// Made of crates/der_core/src/laws.rt by tools/erase/erase.py, and not to be edited.
//! Laws of definitions, comparing, copying and reading: functions that do nothing, each with a law as its contract.

use crate::proved::der_core::document::{DocumentOf, Open};
use crate::proved::der_core::error::{Error, ErrorKind};
use crate::proved::der_core::grammar::{Contents, Encoding, FixedTag};
use crate::proved::der_core::header::Header;
use crate::proved::der_core::integer::UintRef;
use crate::proved::der_core::length::Length;
use crate::proved::der_core::octet_string::OctetStringRef;
use crate::proved::der_core::tag::{Tag, TagNumber};

/// The functions of `Statement.antt` give what the relations of this crate hold of, and nothing else.
///
/// - `length`: the length octets, of each length that has any.
/// - `octets`: the octets of a number, which are canonical.
/// - `integer`: the encoding of a number.
/// - `tlv`: the encoding with these contents.
pub fn lemma_statement_gives_the_relations() {}

/// Lengths compare as their numbers.
pub fn lemma_lengths_compare_by_number() {}

/// Tag numbers are equal exactly if they are the same number.
pub fn lemma_tag_numbers_compare_by_number() {}

/// Tags are equal exactly if their octets are, headers exactly if their tags and lengths are.
pub fn lemma_headers_compare_by_value() {}

/// Documents are equal exactly if they hold the same bytes. Secret ones can't be compared.
pub fn lemma_documents_compare_by_bytes() {}

/// Kinds of errors are equal exactly if they are the same, with the same tags and octets, and errors exactly if their
/// kinds are.
pub fn lemma_kinds_compare_by_value() {}

/// A clone of a borrowed value is the same value.
pub fn lemma_clones_hold_the_same() {}

/// What is printed of a type is read, and nothing else.
///
/// - `law`: the function of spellings reads the contents of valid ones and no others.
/// - `alike`: the function of values gives what they mean.
/// - `reads`: so it gives a value exactly of contents that are printed of it.
/// - `shortest`: what is written is the shortest.
pub fn lemma_contents_are_read<T: Contents>() {}

/// What is printed of a type is read at the front of bytes, and nothing else.
///
/// - `law`: the function of spellings reads the encodings of valid ones and no others.
/// - `alike`: the function of values gives what they mean.
/// - `reads`: so it gives a value exactly of bytes that begin with what is printed of it.
/// - `decodes`: reading a whole slice gives a value exactly if the bytes spell it.
/// - `answers`: so does a call that returns what the function gives.
/// - `one`: no encoding is that of two spellings, or a proper beginning of another.
/// - `shortest`: what is written is shorter than each other encoding of the value.
pub fn lemma_encodings_are_read<T: Encoding>() {}

/// What `Last` reads is one encoding or none, what `read_optional` and `decode_optional` read is an encoding, or
/// nothing where the octet of the tag isn't next.
pub fn lemma_optional_parts_are_read<T: Contents + FixedTag>() {}
