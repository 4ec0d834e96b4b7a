//! Types are read and written by the proved functions. These write whole encodings, and the traits of `der` contents
//! without a header.

use crate::fault::{Fault, fault, later, refused};
use crate::keys::{OtherPrimeInfo, RsaPrivateKey, RsaPublicKey, Version};
use crate::mirror::Mirror;
use crate::params::{RsaOaepParams, RsaPssParams, TrailerField};
use crate::release::{self, length};
#[cfg(feature = "alloc")]
use der::asn1::{Any, Uint};
use der::asn1::{AnyRef, UintRef};
use der::{DecodeValue, Encode, EncodeValue, Error, ErrorKind, FixedTag};
use der::{Header, Length, Reader, Tag, Writer};
use proved::der::DecodeContents;

#[cfg(feature = "alloc")]
type Memory = der::zeroize::Zeroizing<alloc::vec::Vec<u8>>;
/// Without an allocator an encoding may have so many octets: a private key of 8192 bits has fewer.
#[cfg(not(feature = "alloc"))]
type Memory = [u8; 5120];

fn room(size: usize) -> der::Result<Memory> {
    #[cfg(feature = "alloc")]
    let memory = Memory::new(alloc::vec![0; size]);
    #[cfg(not(feature = "alloc"))]
    let memory = [0; 5120];
    if size > memory.len() { Err(ErrorKind::Overflow.into()) } else { Ok(memory) }
}

/// A whole encoding in memory of its own.
pub struct Whole {
    memory: Memory,
    header: usize,
    end: usize,
}

impl Whole {
    /// These contents behind the tag's header.
    fn around(tag: Tag, contents: &[u8]) -> der::Result<Whole> {
        let any = AnyRef::new(tag, contents)?;
        let end = usize::try_from(any.encoded_len()?)?;
        let mut memory = room(end)?;
        any.encode_to_slice(&mut memory[..end])?;
        Ok(Whole { memory, header: end - contents.len(), end })
    }

    /// What a proved function writes.
    pub fn written<'a, T>(value: &'a T) -> der::Result<Whole>
    where
        T: Mirror<'a, Proved: proved::der::Encode> + FixedTag,
    {
        use proved::der::Encode;
        let proved = value.lent().ok_or_else(refused::<T>)?;
        let end = proved.encoded_len().map_err(|_| refused::<T>())?.to_usize();
        let mut memory = room(end)?;
        proved.encode_to_slice(&mut memory[..end]).map_err(|_| refused::<T>())?;
        Ok(Whole { memory, header: end - contents_len(end).ok_or_else(refused::<T>)?, end })
    }

    pub fn octets(&self) -> &[u8] {
        &self.memory[..self.end]
    }

    fn contents(&self) -> &[u8] {
        &self.memory[self.header..self.end]
    }

    /// The fault that `der` finds, where the contents began at this position.
    fn fault<T: Fault>(&self, start: Length) -> Error {
        let front = Length::try_from(self.header).unwrap_or(Length::ZERO);
        later(fault::<T>(self.octets()), start.saturating_sub(front)).unwrap_or_else(|error| error)
    }
}

/// How many octets of so long an encoding are contents.
fn contents_len(end: usize) -> Option<usize> {
    let fits = |contents: &usize| {
        let length = Length::try_from(*contents).and_then(|length| length.encoded_len());
        length.and_then(usize::try_from).is_ok_and(|length| 1 + length + contents == end)
    };
    (2..=6).filter_map(|header| end.checked_sub(header)).find(fits)
}

/// The value of contents that began at a position. Only if there is none, they are copied, for `der` to find the fault.
fn value<'a, T>(contents: &'a [u8], start: Length) -> der::Result<T>
where
    T: Mirror<'a, Proved: DecodeContents<'a>> + Fault,
{
    let read = T::Proved::from_contents(contents).ok().and_then(|read| T::of(&read));
    read.ok_or_else(|| Whole::around(T::TAG, contents).map_or_else(|_| refused::<T>(), |whole| whole.fault::<T>(start)))
}

/// `DecodeValue` of a type that borrows from the contents.
fn borrowed<'a, T, R: Reader<'a>>(reader: &mut R, header: Header) -> der::Result<T>
where
    T: Mirror<'a, Proved: DecodeContents<'a>> + Fault,
{
    let (start, length) = (reader.position(), length(&header));
    reader.read_nested(length, |contents| value(contents.read_slice(length)?, start))
}

/// `DecodeValue` of a type that owns what it holds.
#[cfg(feature = "alloc")]
fn owned<'a, T, R: Reader<'a>>(reader: &mut R, header: Header) -> der::Result<T>
where
    T: for<'w> Mirror<'w, Proved: DecodeContents<'w>> + Fault,
{
    let (start, length) = (reader.position(), length(&header));
    let size = usize::try_from(length)?;
    reader.read_nested(length, |contents| value(contents.read_into(&mut room(size)?[..size])?, start))
}

/// `DecodeValue` of an INTEGER of one octet. As in `der` there may be another before it.
fn small<'a, T, R: Reader<'a>>(reader: &mut R, header: Header) -> der::Result<T>
where
    T: for<'w> Mirror<'w, Proved: DecodeContents<'w>> + Fault,
{
    let (start, mut memory) = (reader.position(), [0; 2]);
    match memory.get_mut(..usize::try_from(length(&header))?) {
        Some(octets) => value(reader.read_into(octets)?, start),
        None => Err(T::fault(reader, header).err().unwrap_or_else(refused::<T>)),
    }
}

/// The value of a whole encoding.
fn whole<'a, T: Mirror<'a, Proved: proved::der::Decode<'a>>>(bytes: &'a [u8]) -> Option<T> {
    use proved::der::Decode;
    T::of(&T::Proved::from_der(bytes).ok()?)
}

fn value_len<'a, T: Mirror<'a, Proved: proved::der::Encode> + FixedTag>(value: &'a T) -> der::Result<Length> {
    use proved::der::Encode;
    let end = value.lent().and_then(|proved| Some(proved.encoded_len().ok()?.to_usize()));
    end.and_then(contents_len).ok_or_else(refused::<T>)?.try_into()
}

/// `DecodeValue` and `EncodeValue`.
macro_rules! coded {
    ($name:ty, $decode:ident) => {
        impl<'a> DecodeValue<'a> for $name {
            release::error!();

            fn decode_value<R: Reader<'a>>(reader: &mut R, header: Header) -> der::Result<Self> {
                $decode(reader, header)
            }
        }

        impl<'a> EncodeValue for $name {
            fn value_len(&self) -> der::Result<Length> {
                value_len(self)
            }

            fn encode_value(&self, writer: &mut impl Writer) -> der::Result<()> {
                writer.write(Whole::written(self)?.contents())
            }
        }
    };
}

/// INTEGERs of one octet.
macro_rules! integers {
    ($($name:ident)*) => { $(
        impl FixedTag for $name {
            const TAG: Tag = Tag::Integer;
        }

        coded! { $name, small }
    )* };
}
integers! { Version TrailerField }

/// A SEQUENCE that borrows or owns, also read from a whole slice.
macro_rules! sequence {
    ($name:ty, $decode:ident) => {
        impl<'a> der::Sequence<'a> for $name {}

        impl<'a> TryFrom<&'a [u8]> for $name {
            type Error = crate::Error;

            fn try_from(bytes: &'a [u8]) -> crate::Result<Self> {
                Length::try_from(bytes.len())?;
                match whole(bytes) {
                    Some(value) => Ok(value),
                    None => Err(fault::<Self>(bytes).into()),
                }
            }
        }

        coded! { $name, $decode }
    };
}
macro_rules! sequences {
    ($($name:ident, $borrowed:ident $owned:ident;)*) => { $(
        sequence! { $name<$borrowed<'a>>, borrowed }
        #[cfg(feature = "alloc")]
        sequence! { $name<$owned>, owned }
    )* };
}
sequences! {
    RsaPublicKey, UintRef Uint;
    OtherPrimeInfo, UintRef Uint;
    RsaPrivateKey, UintRef Uint;
    RsaPssParams, AnyRef Any;
    RsaOaepParams, AnyRef Any;
}
