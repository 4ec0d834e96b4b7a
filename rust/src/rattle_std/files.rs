//! Readers, writers and files.

/// Readers and writers: those of `std`, if it is there.
pub mod io {
    #[cfg(feature = "std")]
    pub use ::std::io::{Read, Result, Write};

    #[cfg(not(feature = "std"))]
    pub use without_std::{Read, Result, Write};

    #[cfg(not(feature = "std"))]
    mod without_std {
        /// What a call of a reader or writer gives.
        pub type Result<T> = core::result::Result<T, ()>;

        /// A reader of one's own.
        pub trait Read {
            /// Reads into the front of the buffer.
            fn read(&mut self, buf: &mut [u8]) -> Result<usize>;
        }

        /// A writer of one's own.
        pub trait Write {
            /// Takes a beginning of the bytes.
            fn write(&mut self, buf: &[u8]) -> Result<usize>;

            /// Flushes what was taken.
            fn flush(&mut self) -> Result<()>;
        }
    }
}

/// Paths of files.
pub mod path {
    #[cfg(feature = "std")]
    type Inner = ::std::path::Path;
    #[cfg(not(feature = "std"))]
    type Inner = str;

    /// The path of a file.
    #[derive(Clone, Copy, Debug)]
    pub struct Path<'p>(pub &'p Inner);
}

/// Handles of the runtime.
pub mod rt {
    use super::io;
    use super::path::Path;

    /// Opens and creates files.
    pub trait Files {
        /// A file.
        type File: io::Read + io::Write;

        /// Opens a file for reading.
        fn open_file(&self, path: Path<'_>) -> io::Result<Self::File>;

        /// Creates a file, or truncates an old one.
        fn create_file(&self, path: Path<'_>) -> io::Result<Self::File>;
    }
}

/// Files.
pub mod fs {
    use super::io;
    use super::path::Path;
    use super::rt::Files;

    /// Opens and creates files by a handle.
    pub struct File;

    impl File {
        /// Opens a file for reading.
        pub fn open<Rt: Files>(rt: &Rt, path: Path<'_>) -> io::Result<Rt::File> {
            rt.open_file(path)
        }

        /// Creates a file, or truncates an old one.
        pub fn create<Rt: Files>(rt: &Rt, path: Path<'_>) -> io::Result<Rt::File> {
            rt.create_file(path)
        }
    }
}
