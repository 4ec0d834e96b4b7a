// Made of crates/der_core/src/integer/small.rt by tools/erase/erase.py, and not to be edited.
//! INTEGER from 0 to 255, as `u8`.

use crate::proved::der_core::decode::DecodeValue;
use crate::proved::der_core::encode::EncodeValue;
use crate::proved::der_core::error::{Error, ErrorKind, Result};
use crate::proved::der_core::grammar::{Contents, EqualByValue, IntegerTag, TaggedBy};
use crate::proved::der_core::integer::uint::{append_number, integer, prepend_number};
use crate::proved::der_core::memory::Memory;
use crate::proved::der_core::prepend::Prepend;
use crate::proved::der_core::tag::Tag;
use crate::proved::der_core::writer::Writer;

/// The number with these contents octets.
fn small(contents: &[u8]) -> Result<u8> {
    let number = integer(contents)?;
    let bytes = number.as_bytes();
    if bytes.len() > 1 {
        return Err(Error::new(ErrorKind::Value { tag: Tag::INTEGER }));
    }
    Ok(bytes[0])
}

impl Contents for u8 {}

impl TaggedBy for u8 {
    type Marker = IntegerTag;
}

impl EqualByValue for u8 {}

impl<'a, M: Memory> DecodeValue<&'a [u8], M> for u8 {
    #[inline(always)]
    fn read_value(_memory: M, contents: &'a [u8]) -> Result<u8> {
        match contents {
            [number] if *number < 0x80 => Ok(*number),
            _ => small(contents),
        }
    }
}

impl EncodeValue for u8 {
    #[inline(always)]
    fn check_value(&self) -> Result<()> {
        let _octet = *self; // which says that the number is below 256
        Ok(())
    }

    #[inline(always)]
    fn prepend_value<W: Prepend>(&self, writer: &mut W) {
        prepend_number(&[*self], writer);
    }

    fn append_value<W: Writer>(&self, writer: &mut W) -> Result<()> {
        append_number(&[*self], writer)
    }
}
