//! The types of the crate as parts of a SEQUENCE: each is read and written as the proved type that it holds.

use crate::der::asn1::{Any, BitStringRef, InRange, Null, ObjectIdentifier, ObjectIdentifierRef};
use crate::der::{Result, Tag, decoded, encoded};
use crate::identifier::{Identifier, OfIdentifier};
use crate::proved::der_core::{
    BorrowedLast, Contents, Decode, DecodeValue, Encode, EncodeValue, Encoding, Memory, OctetStringRef, Prepend,
    Reader, SequenceTag, TagMarker, Tagged, TaggedBy, Writer, read_borrowed,
};
use crate::proved::spki_core::{self, AlgorithmView, IdentifierView, ObjectIdentifierTag};
use crate::rattle_std::alloc::Global;
use crate::spki::AlgorithmIdentifier;
use crate::values::Held;

/// The tag of SET and SET OF.
#[derive(Clone, Copy, Debug, PartialEq, Eq)]
pub struct SetTag;

impl TagMarker for SetTag {
    const TAG: Tag = Tag { octet: 0x31 };
}

/// The contents octets of a SET or a SET OF, which aren't checked: `contents` has them.
pub type OpaqueSet<'a> = Tagged<SetTag, OctetStringRef<'a>>;

/// Contents octets and their tag, of what holds such a value.
macro_rules! parts {
    ($({$($generics:tt)*} $name:ty, $marker:ty, $it:ident => $held:expr;)*) => { $(
        impl<$($generics)*> Contents for $name {}

        impl<$($generics)*> TaggedBy for $name {
            type Marker = $marker;
        }

        impl<$($generics)*> EncodeValue for $name {
            #[inline(always)]
            fn check_value(&self) -> Result<()> {
                let $it = self;
                $held.check_value()
            }

            #[inline(always)]
            fn prepend_value<W: Prepend>(&self, writer: &mut W) {
                let $it = self;
                $held.prepend_value(writer);
            }

            fn append_value<W: Writer>(&self, writer: &mut W) -> Result<()> {
                let $it = self;
                $held.append_value(writer)
            }
        }
    )* };
}
parts! {
    {} ObjectIdentifier, ObjectIdentifierTag, it => it.as_identifier().0;
    {} ObjectIdentifierRef<'_>, ObjectIdentifierTag, it => it.0;
    {P: Encode, O: Identifier} AlgorithmIdentifier<P, O>, SequenceTag, it => {
        (it.oid.as_identifier().0, BorrowedLast(&it.parameters))
    };
}

impl<'a, M: Memory> DecodeValue<&'a [u8], M> for ObjectIdentifierRef<'a> {
    #[inline(always)]
    fn read_value(memory: M, contents: &'a [u8]) -> Result<ObjectIdentifierRef<'a>> {
        Ok(ObjectIdentifierRef(IdentifierView::read_value(memory, contents)?))
    }
}

impl<'a, M: Memory> DecodeValue<&'a [u8], M> for ObjectIdentifier {
    #[inline(always)]
    fn read_value(memory: M, contents: &'a [u8]) -> Result<ObjectIdentifier> {
        Ok(ObjectIdentifierRef::read_value(memory, contents)?.into())
    }
}

impl<'a, M, P, O> DecodeValue<&'a [u8], M> for AlgorithmIdentifier<P, O>
where
    M: Memory,
    P: Decode<&'a [u8], M> + Encode,
    O: Identifier + OfIdentifier<'a>,
{
    #[inline(always)]
    fn read_value(memory: M, contents: &'a [u8]) -> Result<AlgorithmIdentifier<P, O>> {
        Ok(AlgorithmIdentifier::of(AlgorithmView::read_value(memory, contents)?, |parameters| parameters))
    }
}

impl Encoding for Any {
    fn may_start_with(_tag: Tag) -> bool {
        true
    }
}

impl Encode for Any {
    #[inline(always)]
    fn check(&self) -> Result<()> {
        self.as_any().check()
    }

    #[inline(always)]
    fn prepend<W: Prepend>(&self, writer: &mut W) {
        self.as_any().prepend(writer);
    }

    fn append<W: Writer>(&self, writer: &mut W) -> Result<()> {
        self.as_any().append(writer)
    }
}

impl<'a> Decode<&'a [u8], Global> for Any {
    fn read_one(memory: Global, bytes: &'a [u8]) -> Result<(Any, &'a [u8])> {
        let (any, rest) = spki_core::Any::read_one(memory, bytes)?;
        Ok((Any(any), rest))
    }

    fn decode<R: Reader<&'a [u8]>>(memory: Global, reader: &mut R) -> Result<Any> {
        Ok(Any(spki_core::Any::decode(memory, reader)?))
    }
}

decoded! {
    {} bool, bytes => read_borrowed(bytes);
    {} u8, bytes => read_borrowed(bytes);
    {const MIN: u8, const MAX: u8} InRange<MIN, MAX>, bytes => read_borrowed(bytes);
    {} Null, bytes => read_borrowed(bytes);
    {} BitStringRef<'a>, bytes => read_borrowed(bytes);
    {} OpaqueSet<'a>, bytes => read_borrowed(bytes);
}
encoded! {
    {} bool, it => *it;
    {} u8, it => *it;
    {const MIN: u8, const MAX: u8} InRange<MIN, MAX>, it => *it;
    {} Null, it => *it;
    {} BitStringRef<'_>, it => *it;
    {} OpaqueSet<'_>, it => *it;
}
