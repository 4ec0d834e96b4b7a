//! From functions in Rust that read and write a type, the calls of peers.h.
use std::ffi::{c_char, c_void};
use std::hint::black_box;
use std::slice::{from_raw_parts, from_raw_parts_mut};

/// What a library does with one type.
pub trait Type {
    type Value<'a>;
    fn read(der: &[u8]) -> Option<Self::Value<'_>>;
    fn read_strictly(der: &[u8]) -> Option<Self::Value<'_>>;
    fn write(value: &Self::Value<'_>, to: &mut [u8]) -> Option<usize>;
    fn length(value: &Self::Value<'_>) -> usize;
}

/// A type, by the functions of a library: what reads, what reads strictly if it is another, what writes, and what tells
/// the length, if anything does.
#[macro_export]
macro_rules! reads_and_writes {
    ($name:ident, $value:ty, $read:expr, $write:expr) => {
        reads_and_writes!($name, $value, $read, $write, |_: &_| 0);
    };
    ($name:ident, $value:ty, $read:expr, $write:expr, $length:expr) => {
        reads_and_writes!($name, $value, $read, $read, $write, $length);
    };
    ($name:ident, $value:ty, $read:expr, $strict:expr, $write:expr, $length:expr) => {
        pub struct $name;
        impl Type for $name {
            type Value<'a> = $value;
            fn read(der: &[u8]) -> Option<Self::Value<'_>> {
                $read(der)
            }
            fn read_strictly(der: &[u8]) -> Option<Self::Value<'_>> {
                $strict(der)
            }
            fn write(value: &Self::Value<'_>, to: &mut [u8]) -> Option<usize> {
                $write(value, to)
            }
            fn length(value: &Self::Value<'_>) -> usize {
                $length(value)
            }
        }
    };
}

type Call = unsafe extern "C" fn(*const u8, usize, *mut u8, usize, *mut usize) -> i32;

/// `struct steps` of peers.h.
#[repr(C)]
pub struct Steps {
    read: unsafe extern "C" fn(*const u8, usize) -> u32,
    strict: unsafe extern "C" fn(*const u8, usize) -> u32,
    keep: unsafe extern "C" fn(*const u8, usize) -> *mut c_void,
    write: unsafe extern "C" fn(*const c_void, *mut u8, usize, *mut usize) -> u32,
    length: unsafe extern "C" fn(*const c_void) -> usize,
    ask: [Option<unsafe extern "C" fn()>; 2], // no question is asked of Rust
}

/// `struct library` of peers.h.
#[repr(C)]
pub struct Library {
    pub name: *const c_char,
    pub calls: [Call; 8],
    pub writes: [i32; 8],
    pub steps: [Steps; 8],
}
unsafe impl Sync for Library {}

/// 0 for a value, which is made in memory, as no compiler sees that nobody looks at it.
#[inline(always)]
fn status<T>(value: Option<T>) -> u32 {
    match value {
        Some(it) => {
            black_box(&it);
            0
        }
        None => 1,
    }
}
unsafe extern "C" fn read<T: Type>(der: *const u8, len: usize) -> u32 {
    status(T::read(from_raw_parts(der, len)))
}
unsafe extern "C" fn read_strictly<T: Type>(der: *const u8, len: usize) -> u32 {
    status(T::read_strictly(from_raw_parts(der, len)))
}
unsafe extern "C" fn keep<T: Type>(der: *const u8, len: usize) -> *mut c_void {
    let value = T::read(from_raw_parts(der, len));
    value.map_or(std::ptr::null_mut(), |it| Box::into_raw(Box::new(it)).cast())
}
unsafe fn put<T: Type>(value: &T::Value<'_>, to: *mut u8, room: usize, len: *mut usize) -> bool {
    T::write(value, from_raw_parts_mut(to, room)).map(|it| *len = it).is_some()
}
unsafe extern "C" fn write<T: Type>(kept: *const c_void, to: *mut u8, room: usize, len: *mut usize) -> u32 {
    !put::<T>(&*kept.cast(), to, room, len) as u32
}
unsafe extern "C" fn length<T: Type>(kept: *const c_void) -> usize {
    T::length(&*kept.cast())
}
/// Reads and, if there is room, writes: `call` of peers.h.
pub unsafe extern "C" fn call<T: Type>(der: *const u8, n: usize, to: *mut u8, room: usize, len: *mut usize) -> i32 {
    match T::read(from_raw_parts(der, n)) {
        None => 0,
        Some(it) if to.is_null() => {
            black_box(&it);
            1
        }
        Some(it) if put::<T>(black_box(&it), to, room, len) => 1,
        Some(_) => 2,
    }
}
pub const fn steps<T: Type>() -> Steps {
    Steps {
        read: read::<T>,
        strict: read_strictly::<T>,
        keep: keep::<T>,
        write: write::<T>,
        length: length::<T>,
        ask: [None; 2],
    }
}

/// A library of the harness, by its types in the order of peers.h.
#[macro_export]
macro_rules! library {
    ($name:ident, $shown:expr, $writes:expr, [$($type:ident),*]) => {
        #[no_mangle]
        pub static $name: $crate::calls::Library = $crate::calls::Library {
            name: $shown.as_ptr(),
            calls: [$($crate::calls::call::<$type>),*],
            writes: [$writes; 8],
            steps: [$($crate::calls::steps::<$type>()),*],
        };
    };
}
