// Made of crates/pkcs1_program/src/fault.rt by tools/erase/erase.py, and not to be edited.
//! Why a run stopped.

use crate::rattle_std::alloc::{AllocError, AllocFailed};
use crate::rattle_std::fmt;

/// Why a run stopped.
#[derive(Clone, Copy, Debug, PartialEq, Eq)]
pub enum Fault {
    Read,
    Write,
    Memory,
}

impl fmt::Display for Fault {
    fn fmt(&self, f: &mut fmt::Formatter<'_>) -> fmt::Result {
        match self {
            Fault::Read => write!(f, "fault: read"),
            Fault::Write => write!(f, "fault: write"),
            Fault::Memory => write!(f, "fault: memory"),
        }
    }
}

impl From<AllocError> for Fault {
    fn from(_e: AllocError) -> Fault {
        Fault::Memory
    }
}

impl<T> From<AllocFailed<T>> for Fault {
    fn from(_e: AllocFailed<T>) -> Fault {
        Fault::Memory
    }
}
