//! Texts that are printed, and assertions.

use super::alloc::{AllocError, Global};
use super::prelude::String;
use std::fmt::Display;

macro_rules! println {
    ($rt:expr; $($rest:tt)*) => { ::std::io::Result::Ok({ let _ = $rt; ::std::println!($($rest)*) }) };
}
macro_rules! assert {
    ($rt:expr; $($rest:tt)*) => { ::std::assert!($($rest)*) };
}
macro_rules! assert_eq {
    ($rt:expr; $($rest:tt)*) => { ::std::assert_eq!($($rest)*) };
}
macro_rules! assert_ne {
    ($rt:expr; $($rest:tt)*) => { ::std::assert_ne!($($rest)*) };
}
pub(crate) use {assert, assert_eq, assert_ne, println};

/// A value that is printed to a text.
pub trait ToString {
    fn to_string(&self, alloc: Global) -> Result<String, AllocError>;
}

impl<T: Display> ToString for T {
    fn to_string(&self, alloc: Global) -> Result<String, AllocError> {
        String::of(alloc, format_args!("{self}"))
    }
}

impl String {
    pub fn new_in(_alloc: Global) -> String {
        String::default()
    }

    pub fn push_str(&mut self, text: &str) -> Result<(), AllocError> {
        self.0.push_str(text);
        Ok(())
    }

    pub fn clear(&mut self) {
        self.0.clear();
    }
}
