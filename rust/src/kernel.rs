//! What the text that `sequence!` makes names. It is no interface: it may change in any version.
//!
//! A call of these traits that asks for something, such as room, takes a writer or an operation. Those of the crate have
//! no name outside, so no other text calls it.

use crate::der::{Length, Result, Tag};
use crate::proved::der_core::{self as proved, Contents, EncodeValue, FixedTag, Prepend, TagMarker, Writer};
use crate::rattle_std::alloc::Global;
use core::marker::PhantomData;

pub use crate::default::True;
pub use crate::part::SetTag;
pub use crate::proved::der_core::{
    BitString, Borrowed, BorrowedLast, Containing, Encode, EncodeInParts, Encoding, Expected, Explicit, Last,
    OctetStringTag, OptionalThen, Record, RowOperation, SequenceTag, Tagged, TaggedBy,
};

/// The tag `[N]` around an encoding (X.690 8.14.2).
pub struct ContextTag<const N: u8>;

impl<const N: u8> TagMarker for ContextTag<N> {
    const TAG: Tag = Tag { octet: 0xa0 | N };
}

/// The tag `[N]` in the place of that of a `T`, constructed as that is (X.690 8.14.3).
pub struct ImplicitTag<const N: u8, T>(PhantomData<T>);

impl<const N: u8, T: FixedTag> TagMarker for ImplicitTag<N, T> {
    const TAG: Tag = Tag { octet: 0x80 | T::TAG.octet() & 0x20 | N };
}

/// A borrowed value, whose contents are written under a tag.
pub struct Lent<'b, T>(pub &'b T);

impl<T: Contents> Contents for Lent<'_, T> {}

impl<T: TaggedBy> TaggedBy for Lent<'_, T> {
    type Marker = T::Marker;
}

impl<T: EncodeValue> EncodeValue for Lent<'_, T> {
    #[inline(always)]
    fn check_value(&self) -> Result<()> {
        self.0.check_value()
    }

    #[inline(always)]
    fn prepend_value<W: Prepend>(&self, writer: &mut W) {
        self.0.prepend_value(writer);
    }

    fn append_value<W: Writer>(&self, writer: &mut W) -> Result<()> {
        self.0.append_value(writer)
    }
}

/// A type that is read from a whole slice.
pub trait Readable<'a>: Sized {
    fn read(bytes: &'a [u8]) -> Result<Self>;
}

impl<'a, T: proved::Decode<&'a [u8], Global>> Readable<'a> for T {
    #[inline]
    fn read(bytes: &'a [u8]) -> Result<T> {
        proved::read_owned(Global, bytes)
    }
}

pub fn encoded_len<T: Encode>(value: &T) -> Result<Length> {
    value.encoded_len()
}

#[inline]
pub fn encode_to_slice<'o, T: Encode>(value: &T, out: &'o mut [u8]) -> Result<&'o [u8]> {
    value.encode_to_slice(out)
}

#[cfg(feature = "alloc")]
pub use alloc::vec::Vec;

#[cfg(feature = "alloc")]
pub fn to_der<T: Encode>(value: &T) -> Result<Vec<u8>> {
    crate::der::to_der(value)
}

/// A type that may be a part. `sequence!` asks it of each field, as the error then stands at the field's type.
#[diagnostic::on_unimplemented(
    message = "`{Self}` can't be a field of `sequence!`",
    label = "this is no type of ASN.1",
    note = "a field is one of `der::asn1`, such as `UintRef`, `OctetStringRef`, `BitStringRef`, `ObjectIdentifierRef` or \
            `AnyRef`, or `bool`, `u8`, a list of such, a type that `sequence!` made, or an `Option` of one"
)]
pub trait Part {}

#[diagnostic::do_not_recommend]
impl<T: Encode> Part for T {}

/// A part whose encodings have one tag.
#[diagnostic::on_unimplemented(
    message = "`{Self}` has no tag of its own",
    label = "this may begin with any tag",
    note = "an `implicit` tag takes the place of another one, and an `Option` in front of other fields is known by its tag"
)]
pub trait KnownByTag {}

#[diagnostic::do_not_recommend]
impl<T: FixedTag> KnownByTag for T {}

/// A row that can be read.
#[diagnostic::on_unimplemented(
    message = "these fields can't stand in a row",
    label = "the type of each has to be a field's"
)]
pub trait RowOfParts {}

#[diagnostic::do_not_recommend]
impl<T: Contents> RowOfParts for T {}

/// What is asked of the row, and of the type of the field that has this number of others in front of it, as nested tuples.
pub mod asked {
    pub trait Row {
        type Row: super::RowOfParts;
    }

    pub trait Part<Number> {
        type Type: super::Part;
    }

    pub trait KnownByTag<Number> {
        type Type: super::Part + super::KnownByTag;
    }
}

/// The octet that a part begins with, or `None` if it may be any.
pub trait Start {
    const OCTET: Option<u8>;
}

impl<T: FixedTag> Start for T {
    const OCTET: Option<u8> = Some(T::TAG.octet());
}

impl Start for crate::der::asn1::AnyRef<'_> {
    const OCTET: Option<u8> = None;
}

impl Start for crate::der::asn1::Any {
    const OCTET: Option<u8> = None;
}

/// Whether a part may be left out, and what it begins with.
pub type Place = (bool, Option<u8>);

/// The parts of a row.
pub trait Row {
    const PARTS: &'static [Place];
}

/// Whether no part may begin as an OPTIONAL one in front of it, which would be taken for it.
pub const fn is_told_apart<T: Row>() -> bool {
    let (parts, mut first) = (T::PARTS, 0);
    while first < parts.len() {
        let (mut may_be_left_out, mut next) = (parts[first].0, first + 1);
        while may_be_left_out && next < parts.len() {
            if !matches!((parts[first].1, parts[next].1), (Some(one), Some(other)) if one != other) {
                return false;
            }
            may_be_left_out = parts[next].0;
            next += 1;
        }
        first += 1;
    }
    true
}

/// What no call of the crate does, but each type has to have: it appends to a writer.
#[cfg(test)]
mod from_the_front {
    use crate::der::asn1::{AnyRef, BitStringRef, ObjectIdentifier, OctetStringRef, SequenceOf, UintRef};
    use crate::der::{Decode, Encode};
    use crate::proved::der_core::{self as proved, SliceWriter};
    use crate::spki::AlgorithmIdentifier;

    crate::sequence! {
        struct Inner<'a> { number: UintRef<'a>, last: Option<BitStringRef<'a>> }

        struct All<'a> {
            _: Expected<3>,
            algorithm: AlgorithmIdentifier<AnyRef<'a>>,
            id: Option<ObjectIdentifier>,
            octets: octet_string containing Inner<'a>,
            bits: bit_string containing Inner<'a>,
            list: SequenceOf<'a, Inner<'a>>,
            explicit: [0] explicit Option<Inner<'a>>,
            implicit: [1] implicit OctetStringRef<'a>,
            flag: bool = false,
            any: [2] explicit Option<AnyRef<'a>>,
        }
    }

    #[test]
    fn what_is_appended_is_what_is_written_to_a_slice() {
        let inner = [0x30, 7, 2, 1, 5, 3, 2, 0, 9];
        let id = [6, 1, 0x2a];
        let parts: [&[u8]; 16] = [
            &[2, 1, 3, 0x30, 5],
            &id,
            &[5, 0],
            &id,
            &[4, 9],
            &inner,
            &[3, 10, 0],
            &inner,
            &[0x30, 18],
            &inner,
            &inner,
            &[0xa0, 9],
            &inner,
            &[0x81, 1, 0x77, 1, 1, 0xff],
            &[0xa2, 3],
            &id,
        ];
        let (mut contents, mut count) = ([0; 126], 0);
        for octet in parts.into_iter().flatten() {
            contents[count + 2] = *octet;
            count += 1;
        }
        [contents[0], contents[1]] = [0x30, count as u8];
        let der = &contents[..count + 2];
        let all = All::from_der(der).unwrap();
        let (mut room, mut other) = ([0; 126], [0; 126]);
        let mut writer = SliceWriter::new(&mut room);
        proved::Encode::encode(&all, &mut writer).unwrap();
        assert_eq!(writer.finish(), der);
        assert_eq!(all.encode_to_slice(&mut other).unwrap(), der);
        let items = [all.octets, all.bits];
        let given =
            All { octets: Inner { ..items[0] }, bits: Inner { ..items[1] }, list: SequenceOf::new(&items), ..all };
        let mut writer = SliceWriter::new(&mut other);
        proved::Encode::encode(&given, &mut writer).unwrap();
        assert_eq!(writer.finish(), der);
    }
}
