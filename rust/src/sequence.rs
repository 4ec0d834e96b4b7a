//! `sequence!`: SEQUENCEs of one's own.

/// Defines structs that are SEQUENCEs of their fields, with [`Decode`](crate::der::Decode) and
/// [`Encode`](crate::der::Encode).
///
#[cfg_attr(any(doc, doctest), doc = include_str!("../OWN_TYPES.md"))]
#[macro_export]
macro_rules! sequence {
    ($($structs:tt)*) => {
        $crate::__sequence! { $($structs)* }
    };
}

/// `sequence!`, and its steps: a struct, its fields one by one, and what is made of them all.
#[doc(hidden)]
#[macro_export]
macro_rules! __sequence {
    () => {};
    (
        $(#[$attribute:meta])*
        $visibility:vis struct $name:ident $(<$($lifetime:lifetime),* $(,)? $($parameter:ident),*>)? { $($body:tt)* }
        $($others:tt)*
    ) => {
        $crate::__sequence! {
            @fields
            {[$(#[$attribute])* $visibility] $name [$($($lifetime)*)?] [$($($parameter)*)?]}
            [] []
            $($body)*
        }
        $crate::__sequence! { $($others)* }
    };

    // The fields, one by one: those of the struct, and the parts of the row.
    (@fields $head:tt [$($fields:tt)*] $parts:tt) => {
        $crate::__sequence! { @item $head [$($fields)*] $parts }
    };
    (@fields $head:tt $fields:tt [$($parts:tt)*] $(#[$attribute:meta])* _: Expected<$number:literal> $(, $($rest:tt)*)?) => {
        $crate::__sequence! { @fields $head $fields [$($parts)* {fixed $number}] $($($rest)*)? }
    };
    (@fields $head:tt $fields:tt $parts:tt $(#[$attribute:meta])* _ $($rest:tt)*) => {
        compile_error! { "a field without a name is `_: Expected<N>`, the INTEGER that it has to be" }
        $crate::__expected! { without_name $($rest)* }
    };
    (
        @fields $head:tt $fields:tt $parts:tt
        $(#[$attribute:meta])* $visibility:vis $field:ident: [$number:literal] explicit $($rest:tt)*
    ) => {
        $crate::__asked! { @tag $field $number }
        $crate::__sequence! { @type $head $fields $parts [$(#[$attribute])* $visibility] $field [explicit $number] $($rest)* }
    };
    (
        @fields $head:tt $fields:tt $parts:tt
        $(#[$attribute:meta])* $visibility:vis $field:ident: [$number:literal] implicit $($rest:tt)*
    ) => {
        $crate::__asked! { @tag $field $number }
        $crate::__sequence! { @type $head $fields $parts [$(#[$attribute])* $visibility] $field [implicit $number] $($rest)* }
    };
    (
        @fields $head:tt $fields:tt $parts:tt
        $(#[$attribute:meta])* $visibility:vis $field:ident: [$($tag:tt)*] $($rest:tt)*
    ) => {
        compile_error! { concat!(
            "`", stringify!($field), "`: after a context tag, such as [0], comes `explicit` or `implicit`, and then the type"
        ) }
        $crate::__expected! { after_tag $($rest)* }
    };
    (
        @fields $head:tt $fields:tt $parts:tt
        $(#[$attribute:meta])* $visibility:vis $field:ident: octet_string containing $($rest:tt)*
    ) => {
        $crate::__sequence! { @type $head $fields $parts [$(#[$attribute])* $visibility] $field [octet_string] $($rest)* }
    };
    (
        @fields $head:tt $fields:tt $parts:tt
        $(#[$attribute:meta])* $visibility:vis $field:ident: bit_string containing $($rest:tt)*
    ) => {
        $crate::__sequence! { @type $head $fields $parts [$(#[$attribute])* $visibility] $field [bit_string] $($rest)* }
    };
    (
        @fields $head:tt $fields:tt $parts:tt
        $(#[$attribute:meta])* $visibility:vis $field:ident: $($rest:tt)*
    ) => {
        $crate::__sequence! { @type $head $fields $parts [$(#[$attribute])* $visibility] $field [bare] $($rest)* }
    };
    (@fields $head:tt $fields:tt $parts:tt $($rest:tt)*) => {
        compile_error! { concat!("a field is `name: Type`, and not `", stringify!($($rest)*), "`") }
        $crate::__expected! { field $($rest)* }
    };
    (
        @type $head:tt [$($fields:tt)*] [$($parts:tt)*] [$($front:tt)*] $field:ident $how:tt
        Option<$type:ty $(,)?> $(, $($rest:tt)*)?
    ) => {
        $crate::__sequence! {
            @fields $head [$($fields)* $($front)* $field: ::core::option::Option<$type>,] [$($parts)* {option $how $field $type}]
            $($($rest)*)?
        }
    };
    (
        @type $head:tt [$($fields:tt)*] [$($parts:tt)*] [$($front:tt)*] $field:ident $how:tt
        bool = false $(, $($rest:tt)*)?
    ) => {
        $crate::__sequence! {
            @fields $head [$($fields)* $($front)* $field: bool,]
            [$($parts)* {flag $how $field $crate::kernel::True}]
            $($($rest)*)?
        }
    };
    (@type $head:tt $fields:tt $parts:tt $front:tt $field:ident $how:tt $type:ty = $($rest:tt)*) => {
        compile_error! { concat!(
            "`", stringify!($field), "`: the only default is that of `bool = false`. For another one, take an `Option` of \
            a type of all other values, such as `Option<InRange<1, 2>>`"
        ) }
        $crate::__expected! { default $($rest)* }
    };
    (
        @type $head:tt [$($fields:tt)*] [$($parts:tt)*] [$($front:tt)*] $field:ident $how:tt
        $type:ty $(, $($rest:tt)*)?
    ) => {
        $crate::__sequence! {
            @fields $head [$($fields)* $($front)* $field: $type,] [$($parts)* {one $how $field $type}]
            $($($rest)*)?
        }
    };
    (@type $head:tt $fields:tt $parts:tt $front:tt $field:ident $how:tt $($rest:tt)*) => {
        compile_error! { concat!("`", stringify!($field), "`: after its type comes a comma, and then the next field") }
        $crate::__expected! { after_type $($rest)* }
    };

    // The struct, and what makes it a record of the row.
    (
        @item {[$($front:tt)*] $name:ident [$($lifetime:lifetime)*] [$($parameter:ident)*]}
        [$($fields:tt)*] [$($part:tt)*]
    ) => {
        $($front)* struct $name<$($lifetime,)* $($parameter),*> {
            $($fields)*
        }

        $crate::__asked! { $name [$($lifetime)*] [$($parameter)*] [$($part)*] }

        impl<$($lifetime,)* $($parameter),*> $crate::kernel::TaggedBy for $name<$($lifetime,)* $($parameter),*> {
            type Marker = $crate::kernel::SequenceTag;
        }

        impl<$($lifetime,)* $($parameter: $crate::kernel::Encoding),*> $crate::kernel::Record
            for $name<$($lifetime,)* $($parameter),*>
        {
            type Fields = $crate::__row!(@type $($part)*);

            #[inline(always)]
            fn from_fields(row: $crate::__row!(@type $($part)*)) -> $name<$($lifetime,)* $($parameter),*> {
                let $crate::__row!(@pattern $($part)*) = row;
                $crate::__row!(@value $name [] $($part)*)
            }
        }

        impl<$($lifetime,)* $($parameter: $crate::kernel::Encode),*> $crate::kernel::EncodeInParts
            for $name<$($lifetime,)* $($parameter),*>
        {
            #[inline(always)]
            fn with_row<__Operation: $crate::kernel::RowOperation>(
                &self,
                operation: &mut __Operation,
            ) -> __Operation::Output {
                operation.apply(&$crate::__row!(@written self $($part)*))
            }
        }

        impl<'__der, $($lifetime,)* $($parameter),*> $crate::der::Decode<'__der> for $name<$($lifetime,)* $($parameter),*>
        where
            Self: $crate::kernel::Readable<'__der>,
        {
            #[inline]
            fn from_der(bytes: &'__der [u8]) -> $crate::der::Result<Self> {
                $crate::kernel::Readable::read(bytes)
            }
        }

        impl<$($lifetime,)* $($parameter: $crate::kernel::Encode),*> $crate::der::Encode
            for $name<$($lifetime,)* $($parameter),*>
        {
            fn encoded_len(&self) -> $crate::der::Result<$crate::der::Length> {
                $crate::kernel::encoded_len(self)
            }

            #[inline]
            fn encode_to_slice<'__out>(&self, out: &'__out mut [u8]) -> $crate::der::Result<&'__out [u8]> {
                $crate::kernel::encode_to_slice(self, out)
            }

            $crate::__to_der! {}
        }
    };

    ($($other:tt)*) => {
        compile_error! { "`sequence!` takes structs with named fields, whose generics are lifetimes and then types, without \
                          bounds: `pub struct Name<'a, T> { pub field: Type, .. }`" }
    };
}
