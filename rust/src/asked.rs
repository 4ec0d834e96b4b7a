//! What `sequence!` asks of its fields, so that errors stand at them.

/// The types of the fields, and their tags.
#[doc(hidden)]
#[macro_export]
macro_rules! __asked {
    // Types are asked at their places. Where there are lifetimes alone, the tags are known too.
    ($name:ident $lifetimes:tt $parameters:tt $parts:tt) => {
        $crate::__asked! { @types $name $lifetimes $parameters () $parts }
        $crate::__asked! { @row $name $lifetimes $parameters $parts }
        $crate::__asked! { @tags $name $lifetimes $parameters [] $parts }
    };

    // The types, each with the number of those in front of it, as nested tuples.
    (@types $name:ident $lifetimes:tt $parameters:tt $number:tt []) => {};
    (@types $name:ident $lifetimes:tt $parameters:tt $number:tt [{fixed $of:literal} $($rest:tt)*]) => {
        $crate::__asked! { @types $name $lifetimes $parameters $number [$($rest)*] }
    };
    (
        @types $name:ident $lifetimes:tt $parameters:tt $number:tt
        [{$kind:ident [implicit $of:literal] $field:ident $type:ty} $($rest:tt)*]
    ) => {
        $crate::__asked! { @type KnownByTag $name $lifetimes $parameters $number $type }
        $crate::__asked! { @types $name $lifetimes $parameters ($number,) [$($rest)*] }
    };
    (
        @types $name:ident $lifetimes:tt $parameters:tt $number:tt
        [{option [bare] $field:ident $type:ty} $($rest:tt)+]
    ) => {
        $crate::__asked! { @type KnownByTag $name $lifetimes $parameters $number $type }
        $crate::__asked! { @types $name $lifetimes $parameters ($number,) [$($rest)*] }
    };
    (
        @types $name:ident $lifetimes:tt $parameters:tt $number:tt
        [{$kind:ident $how:tt $field:ident $type:ty} $($rest:tt)*]
    ) => {
        $crate::__asked! { @type Part $name $lifetimes $parameters $number $type }
        $crate::__asked! { @types $name $lifetimes $parameters ($number,) [$($rest)*] }
    };
    (@type $of:ident $name:ident [$($lifetime:lifetime)*] [$($parameter:ident)*] $number:tt $type:ty) => {
        impl<$($lifetime,)* $($parameter: $crate::kernel::Encode),*> $crate::kernel::asked::$of<$number>
            for $name<$($lifetime,)* $($parameter),*>
        {
            type Type = $type;
        }
    };

    (@row $name:ident [$($lifetime:lifetime)*] [$($parameter:ident)*] [$($part:tt)*]) => {
        impl<$($lifetime,)* $($parameter: $crate::kernel::Encoding),*> $crate::kernel::asked::Row
            for $name<$($lifetime,)* $($parameter),*>
        {
            type Row = $crate::__row!(@type $($part)*);
        }
    };

    (@tag $field:ident $number:literal) => {
        const _: () = ::core::assert!(
            $number <= 30,
            ::core::concat!("`", ::core::stringify!($field), "`: a context tag is from [0] to [30]"),
        );
    };

    // The tags, each with whether its part may be left out.
    (@tags $name:ident [$($lifetime:lifetime)*] [] [$($tag:expr,)*] []) => {
        impl<$($lifetime),*> $crate::kernel::Row for $name<$($lifetime),*> {
            const PARTS: &'static [$crate::kernel::Place] = &[$($tag),*];
        }
        #[allow(elided_lifetimes_in_paths)]
        const _: () = ::core::assert!(
            $crate::kernel::is_told_apart::<$name>(),
            ::core::concat!(
                "`", ::core::stringify!($name),
                "`: an OPTIONAL field, or one with a default, begins with the tag of a later one"
            ),
        );
    };
    (@tags $name:ident $lifetimes:tt [] [$($tag:expr,)*] [{fixed $number:literal} $($rest:tt)*]) => {
        $crate::__asked! {
            @tags $name $lifetimes []
            [$($tag,)* (false, <$crate::kernel::Expected<$number> as $crate::kernel::Start>::OCTET),] [$($rest)*]
        }
    };
    (@tags $name:ident $lifetimes:tt [] [$($tag:expr,)*] [{one $how:tt $field:ident $type:ty} $($rest:tt)*]) => {
        $crate::__asked! {
            @tags $name $lifetimes []
            [$($tag,)* (false, <$crate::__row!(@part $how $type) as $crate::kernel::Start>::OCTET),] [$($rest)*]
        }
    };
    (
        @tags $name:ident $lifetimes:tt [] [$($tag:expr,)*]
        [{$kind:ident $how:tt $field:ident $type:ty} $($rest:tt)*]
    ) => {
        $crate::__asked! {
            @tags $name $lifetimes []
            [$($tag,)* (true, <$crate::__row!(@part $how $type) as $crate::kernel::Start>::OCTET),] [$($rest)*]
        }
    };
    (@tags $name:ident $lifetimes:tt [$($parameter:ident)+] $tags:tt $parts:tt) => {};
}

/// What stands at some places. rustc points to the token that doesn't, where the text of an error can't.
#[doc(hidden)]
#[macro_export]
macro_rules! __expected {
    (after_tag explicit $($rest:tt)*) => {};
    (after_tag implicit $($rest:tt)*) => {};
    (without_name: Expected<$number:literal> $($rest:tt)*) => {};
    (field $name:ident: $($rest:tt)*) => {};
    (default false $($rest:tt)*) => {};
    (after_type $type:ty, $($rest:tt)*) => {};
}

/// `to_der` of a type, if there is an allocator.
#[cfg(feature = "alloc")]
#[doc(hidden)]
#[macro_export]
macro_rules! __to_der {
    () => {
        fn to_der(&self) -> $crate::der::Result<$crate::kernel::Vec<u8>> {
            $crate::kernel::to_der(self)
        }
    };
}

/// The same without one.
#[cfg(not(feature = "alloc"))]
#[doc(hidden)]
#[macro_export]
macro_rules! __to_der {
    () => {};
}
