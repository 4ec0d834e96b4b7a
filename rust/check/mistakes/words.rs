//! Mistakes in the words of `sequence!`. What errors say stands after `//~`, at their lines, and that of the first one
//! is among it.
#![allow(dead_code)]
use pkcs1_proved::der::asn1::Null;
use pkcs1_proved::sequence;

sequence! { //~ `number`: after a context tag, such as [0], comes `explicit` or `implicit`, and then the type
    struct WordOfTag {
        number: [0] explcit u8, //~ no rules expected
    }
}

sequence! { //~ `number`: after a context tag, such as [0], comes `explicit` or `implicit`, and then the type
    struct NoWordOfTag {
        number: [0] u8, //~ no rules expected
    }
}

sequence! { //~ `first`: after its type comes a comma, and then the next field
    struct NoComma {
        first: u8
        second: u8, //~ no rules expected
    }
}

sequence! { //~ `number`: the only default is that of `bool = false`
    struct Default {
        number: u8 = 7, //~ no rules expected
    }
}

sequence! { //~ a field without a name is `_: Expected<N>`
    struct NoName {
        _: Null, //~ no rules expected
    }
}

sequence! { //~ a field is `name: Type`, and not `u8,`
    struct NoField {
        u8, //~ no rules expected
    }
}

sequence! { //~ `sequence!` takes structs with named fields
    enum Choice {
        Number(u8),
    }
}

sequence! { //~ `sequence!` takes structs with named fields
    struct Tuple(u8);
}

sequence! { //~ `sequence!` takes structs with named fields
    struct Bounds<T: Clone> {
        it: T,
    }
}
