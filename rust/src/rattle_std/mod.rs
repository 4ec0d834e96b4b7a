//! What the erased text uses of Rattle's standard library, over Rust's `core`, and over `alloc` and `std` if these
//! features are on. Without `alloc` each allocation fails, which the erased text allows any allocation to do.

pub mod arrayvec;
mod files;
mod vec;

pub use core::{cmp, fmt, hash, result};
pub use files::{fs, io, path, rt};

static AN_OCTET: [u8; 1] = [0];

/// An empty slice with an address. Rust has none for `&[]`, but C asks for one that lies in an object.
pub const NO_OCTETS: &[u8] = AN_OCTET.split_at(0).0;

/// Names that stand in the prelude of Rattle.
pub mod prelude {
    pub use super::vec::Vec;
    pub(crate) use super::vec::vec;
}

/// Marks of types.
pub mod marker {
    pub use core::marker::PhantomData;

    /// A type for which the proof has a model. It has no members that run.
    pub trait Model {}
}

/// The allocator, and its errors.
pub mod alloc {
    /// The allocator of the program.
    #[derive(Clone, Copy, Debug, Default)]
    pub struct Global;

    /// No memory was found.
    #[derive(Clone, Copy, Debug, PartialEq, Eq)]
    pub struct AllocError;

    /// No memory was found to store the value, which is handed back.
    #[derive(Debug)]
    pub struct AllocFailed<T>(pub T);

    impl<T> From<AllocFailed<T>> for AllocError {
        fn from(_failed: AllocFailed<T>) -> AllocError {
            AllocError
        }
    }
}
