//! Mistakes in the types of `sequence!`. What errors say stands after `//~`, at their lines, and that of the first one
//! is among it.
#![allow(dead_code)]
use pkcs1_proved::der::asn1::{AnyRef, SequenceOf, UintRef};
use pkcs1_proved::sequence;

sequence! {
    struct NoTypeOfAsn1<'a> {
        number: UintRef<'a>,
        text: String, //~ `String` can't be a field of `sequence!`
    }
}

sequence! {
    struct Slice<'a> {
        octets: &'a [u8], //~ `&'a [u8]` can't be a field of `sequence!`
    }
}

sequence! {
    struct Twice {
        number: Option<
            Option<u8>, //~ `Option<u8>` can't be a field of `sequence!`
        >,
    }
}

sequence! {
    struct Items<'a> {
        texts: SequenceOf<'a, &'a str>, //~ SequenceOf<'a, &'a str>` can't be a field of `sequence!`
    }
}

sequence! {
    struct AnyInFront<'a> {
        any: Option<AnyRef<'a>>, //~ AnyRef<'a>` has no tag of its own
        number: UintRef<'a>,
    }
}

sequence! {
    struct AnyImplicit<'a> {
        any: [0] implicit AnyRef<'a>, //~ AnyRef<'a>` has no tag of its own
    }
}

sequence! { //~ `number`: a context tag is from [0] to [30]
    struct TagAboveThirty {
        number: [31] explicit u8,
    }
}

sequence! { //~ `SameTag`: an OPTIONAL field, or one with a default, begins with the tag of a later one
    struct SameTag<'a> {
        first: Option<UintRef<'a>>,
        second: u8,
    }
}

sequence! { //~ `SameTagLater`: an OPTIONAL field, or one with a default, begins with the tag of a later one
    struct SameTagLater<'a> {
        first: bool = false,
        any: AnyRef<'a>,
    }
}
