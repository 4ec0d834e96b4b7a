// Made of crates/der_core/src/split.rt by tools/erase/erase.py, and not to be edited.
//! Where an encoding ends: its contents octets and what follows them.

use crate::proved::der_core::error::{Error, ErrorKind, Result};
use crate::proved::der_core::header::Header;
use crate::proved::der_core::reader::Reader;
use crate::proved::der_core::slice_reader::SliceReader;
use crate::proved::der_core::tag::Tag;

/// The contents octets of the encoding with this tag in front, and what follows it. Err: the first fault.
#[inline(always)]
pub fn split_encoding(bytes: &[u8], tag: Tag) -> Result<(&[u8], &[u8])> {
    if let Some(split) = split_likely(bytes, tag) {
        return Ok(split);
    }
    split_unlikely(bytes, tag)
}

/// The same, if the tag is there, the length has at most two octets behind its first, and so many bytes follow. `None`
/// says nothing of the bytes.
#[inline(always)]
fn split_likely(bytes: &[u8], tag: Tag) -> Option<(&[u8], &[u8])> {
    match bytes {
        [first, form, rest @ ..] if *first == tag.octet() => {
            if *form < 0x80 {
                return rest.split_at_checked(*form as usize);
            }
            if *form == 0x82 {
                return match rest {
                    [high, low, left @ ..] if *high > 0 => {
                        left.split_at_checked(*high as usize * 0x100 + *low as usize)
                    }
                    _ => None,
                };
            }
            match rest {
                [length, left @ ..] if *form == 0x81 && *length >= 0x80 => {
                    left.split_at_checked(*length as usize)
                }
                _ => None,
            }
        }
        _ => None,
    }
}

/// The same of any bytes.
#[cold]
#[inline(never)]
fn split_unlikely(bytes: &[u8], tag: Tag) -> Result<(&[u8], &[u8])> {
    let mut reader = SliceReader::new(bytes)?;
    let header = Header::decode(&mut reader)?;
    if header.tag != tag {
        return Err(Error::new(ErrorKind::TagUnexpected {
            expected: tag,
            actual: header.tag,
        }));
    }
    match reader.rest().split_at_checked(header.length.to_usize()) {
        Some(split) => Ok(split),
        None => Err(Error::new(ErrorKind::Incomplete)),
    }
}

/// Whether the first octet is that of the tag.
#[inline(always)]
pub fn begins_with(bytes: &[u8], tag: Tag) -> bool {
    match bytes {
        [first, ..] => *first == tag.octet(),
        [] => false,
    }
}
