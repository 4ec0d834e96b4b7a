//! Texts on the heap, and what is printed to standard error.

use super::alloc::{AllocError, Global};
use super::io::Write;
use super::{HostRuntime, fmt, io};
use core::ops::Deref;

macro_rules! format {
    (in $alloc:expr; $($rest:tt)*) => {
        $crate::rattle_std::prelude::String::of($alloc, format_args!($($rest)*))
    };
}
macro_rules! eprintln {
    ($rt:expr; $($rest:tt)*) => { $crate::rattle_std::prelude::Eprint::eprint($rt, format_args!($($rest)*)) };
}
pub(crate) use {eprintln, format};

/// A handle that prints to standard error.
pub trait Eprint {
    /// Prints a line.
    fn eprint(&self, text: fmt::Arguments<'_>) -> io::Result<()>;
}

impl Eprint for HostRuntime {
    fn eprint(&self, text: fmt::Arguments<'_>) -> io::Result<()> {
        writeln!(io::stderr(), "{text}")
    }
}

/// A text on the heap.
#[derive(Clone, Debug, Default, PartialEq, Eq)]
pub struct String(pub ::alloc::string::String);

impl String {
    /// The text that is printed so.
    pub fn of(_alloc: Global, text: fmt::Arguments<'_>) -> Result<String, AllocError> {
        let mut made = String::default();
        fmt::write(&mut made, text).map_err(|_| AllocError)?;
        Ok(made)
    }

    /// A copy of the text.
    pub fn from_str(alloc: Global, text: &str) -> Result<String, AllocError> {
        String::of(alloc, format_args!("{text}"))
    }

    pub fn as_str(&self) -> &str {
        &self.0
    }
}

/// Fails if there is no memory.
impl fmt::Write for String {
    fn write_str(&mut self, text: &str) -> fmt::Result {
        self.0.try_reserve(text.len()).map_err(|_| fmt::Error)?;
        self.0.push_str(text);
        Ok(())
    }
}

impl Deref for String {
    type Target = str;

    fn deref(&self) -> &str {
        &self.0
    }
}

impl fmt::Display for String {
    fn fmt(&self, f: &mut fmt::Formatter<'_>) -> fmt::Result {
        self.0.fmt(f)
    }
}
