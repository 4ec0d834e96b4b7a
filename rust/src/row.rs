//! The row of a `sequence!`, by its parts:
//!
//! - `{fixed N}` is `Expected<N>`, without a field.
//! - `{one HOW FIELD TYPE}` has to be there.
//! - `{option HOW FIELD TYPE}` is there or not.
//! - `{flag HOW FIELD True}` is there if the field is true.
//!
//! HOW is `[bare]`, `[explicit N]`, `[implicit N]`, `[octet_string]` or `[bit_string]`.

/// The row: its type, the pattern of one that was read, the struct of that, and the row of a struct that is written.
#[doc(hidden)]
#[macro_export]
macro_rules! __row {
    (@type) => { () };
    (@type {fixed $number:literal} $($rest:tt)*) => {
        ($crate::kernel::Expected<$number>, $crate::__row!(@type $($rest)*))
    };
    (@type {one $how:tt $field:ident $type:ty} $($rest:tt)*) => {
        ($crate::__row!(@part $how $type), $crate::__row!(@type $($rest)*))
    };
    (@type {$kind:ident $how:tt $field:ident $type:ty}) => {
        $crate::kernel::Last<$crate::__row!(@part $how $type)>
    };
    (@type {$kind:ident $how:tt $field:ident $type:ty} $($rest:tt)+) => {
        $crate::kernel::OptionalThen<$crate::__row!(@part $how $type), $crate::__row!(@type $($rest)+)>
    };

    // The type of a part that holds this one.
    (@part [bare] $type:ty) => { $type };
    (@part [explicit $number:literal] $type:ty) => {
        $crate::kernel::Explicit<$crate::kernel::ContextTag<$number>, $type>
    };
    (@part [implicit $number:literal] $type:ty) => {
        $crate::kernel::Tagged<$crate::kernel::ImplicitTag<$number, $type>, $type>
    };
    (@part [octet_string] $type:ty) => {
        $crate::kernel::Tagged<$crate::kernel::OctetStringTag, $crate::kernel::Containing<$type>>
    };
    (@part [bit_string] $type:ty) => { $crate::kernel::BitString<$crate::kernel::Containing<$type>> };

    (@pattern) => { () };
    (@pattern {fixed $number:literal} $($rest:tt)*) => { (_, $crate::__row!(@pattern $($rest)*)) };
    (@pattern {one $how:tt $field:ident $type:ty} $($rest:tt)*) => { ($field, $crate::__row!(@pattern $($rest)*)) };
    (@pattern {$kind:ident $how:tt $field:ident $type:ty}) => { $crate::kernel::Last($field) };
    (@pattern {$kind:ident $how:tt $field:ident $type:ty} $($rest:tt)+) => {
        $crate::kernel::OptionalThen($field, $crate::__row!(@pattern $($rest)+))
    };

    (@value $name:ident [$($value:tt)*]) => { $name { $($value)* } };
    (@value $name:ident $value:tt {fixed $number:literal} $($rest:tt)*) => {
        $crate::__row!(@value $name $value $($rest)*)
    };
    (@value $name:ident [$($value:tt)*] {one [bare] $field:ident $type:ty} $($rest:tt)*) => {
        $crate::__row!(@value $name [$($value)* $field,] $($rest)*)
    };
    (@value $name:ident [$($value:tt)*] {one $how:tt $field:ident $type:ty} $($rest:tt)*) => {
        $crate::__row!(@value $name [$($value)* $field: $crate::__row!(@held $how $field),] $($rest)*)
    };
    (@value $name:ident [$($value:tt)*] {flag $how:tt $field:ident $type:ty} $($rest:tt)*) => {
        $crate::__row!(@value $name [$($value)* $field: $field.is_some(),] $($rest)*)
    };
    (@value $name:ident [$($value:tt)*] {option [bare] $field:ident $type:ty} $($rest:tt)*) => {
        $crate::__row!(@value $name [$($value)* $field,] $($rest)*)
    };
    (@value $name:ident [$($value:tt)*] {option $how:tt $field:ident $type:ty} $($rest:tt)*) => {
        $crate::__row!(@value $name [$($value)* $field: $field.map(|part| $crate::__row!(@held $how part)),] $($rest)*)
    };

    // What a part holds.
    (@held [explicit $number:literal] $part:ident) => { $part.contents.0 };
    (@held [implicit $number:literal] $part:ident) => { $part.contents };
    (@held [octet_string] $part:ident) => { $part.contents.0 };
    (@held [bit_string] $part:ident) => { $part.0.0 };

    (@written $self:ident) => { () };
    (@written $self:ident {fixed $number:literal} $($rest:tt)*) => {
        ($crate::kernel::Expected::<$number>, $crate::__row!(@written $self $($rest)*))
    };
    (@written $self:ident {one [bare] $field:ident $type:ty} $($rest:tt)*) => {
        ($crate::kernel::Borrowed(&$self.$field), $crate::__row!(@written $self $($rest)*))
    };
    (@written $self:ident {one $how:tt $field:ident $type:ty} $($rest:tt)*) => {
        ($crate::__row!(@holding $how $type, &$self.$field), $crate::__row!(@written $self $($rest)*))
    };
    (@written $self:ident {option [bare] $field:ident $type:ty}) => {
        $crate::kernel::BorrowedLast(&$self.$field)
    };
    (@written $self:ident $($rest:tt)*) => { $crate::__row!(@after $self $($rest)*) };

    // The same after an OPTIONAL part, or from one on.
    (@after $self:ident {one $($part:tt)*} $($rest:tt)*) => {
        $crate::__row!(@written $self {one $($part)*} $($rest)*)
    };
    (@after $self:ident {option [bare] $field:ident $type:ty}) => {
        $crate::kernel::Last($self.$field.as_ref().map($crate::kernel::Borrowed))
    };
    (@after $self:ident {$kind:ident $how:tt $field:ident $type:ty}) => {
        $crate::kernel::Last($crate::__row!(@optional $kind $how $type, $self.$field))
    };
    (@after $self:ident {$kind:ident $how:tt $field:ident $type:ty} $($rest:tt)+) => {
        $crate::kernel::OptionalThen(
            $crate::__row!(@optional $kind $how $type, $self.$field),
            $crate::__row!(@after $self $($rest)+),
        )
    };
    (@after $self:ident $($rest:tt)*) => { $crate::__row!(@written $self $($rest)*) };

    (@optional option $how:tt $type:ty, $field:expr) => {
        $field.as_ref().map(|part| $crate::__row!(@holding $how $type, part))
    };
    (@optional flag [bare] $type:ty, $field:expr) => { $field.then_some($crate::kernel::True) };
    (@optional flag $how:tt $type:ty, $field:expr) => {
        $field.then_some($crate::__row!(@holding $how $type, &$crate::kernel::True))
    };

    // The part that holds this one.
    (@holding [bare] $type:ty, $part:expr) => { $crate::kernel::Lent($part) };
    (@holding [explicit $number:literal] $type:ty, $part:expr) => {
        $crate::kernel::Explicit::<$crate::kernel::ContextTag<$number>, _>::new(
            $crate::kernel::Containing($crate::kernel::Borrowed($part)),
        )
    };
    (@holding [implicit $number:literal] $type:ty, $part:expr) => {
        $crate::kernel::Tagged::<$crate::kernel::ImplicitTag<$number, $type>, _>::new($crate::kernel::Lent($part))
    };
    (@holding [octet_string] $type:ty, $part:expr) => {
        $crate::kernel::Tagged::<$crate::kernel::OctetStringTag, _>::new(
            $crate::kernel::Containing($crate::kernel::Borrowed($part)),
        )
    };
    (@holding [bit_string] $type:ty, $part:expr) => {
        $crate::kernel::BitString($crate::kernel::Containing($crate::kernel::Borrowed($part)))
    };
}
