//! `BOOLEAN DEFAULT FALSE` of a row. What follows is the text of `crates/examples/src/extension.rt`, without its proof:
//! tools/erase/expanded.py compares both.

use crate::proved::der_core::{
    BooleanTag, Contents, DecodeValue, EncodeValue, Error, ErrorKind, Memory, OneContents, Prepend, Result, Tag,
    TaggedBy, Writer,
};

/// The BOOLEAN TRUE and no other (X.690 8.2, 11.1). It is what stands in the place of `BOOLEAN DEFAULT FALSE`, if
/// anything does: DER leaves the default out (11.5).
#[derive(Clone, Copy, Debug)]
pub struct True;

impl Contents for True {}

impl TaggedBy for True {
    type Marker = BooleanTag;
}

/// Whether these are the contents octets of TRUE.
fn is_true(contents: &[u8]) -> bool {
    matches!(contents, [0xff])
}

/// TRUE, if these are its contents octets.
fn true_of(contents: &[u8]) -> Result<True> {
    if is_true(contents) { Ok(True) } else { Err(Error::new(ErrorKind::Value { tag: Tag::BOOLEAN })) }
}

impl<'a, M: Memory> DecodeValue<&'a [u8], M> for True {
    fn read_value(_memory: M, contents: &'a [u8]) -> Result<True> {
        true_of(contents)
    }
}

impl EncodeValue for True {
    fn check_value(&self) -> Result<()> {
        Ok(())
    }

    fn prepend_value<W: Prepend>(&self, writer: &mut W) {
        writer.prepend(&[0xff]);
    }

    fn append_value<W: Writer>(&self, writer: &mut W) -> Result<()> {
        writer.write(&[0xff])
    }
}

impl OneContents for True {}
