//! Files, as the program uses them, over what `system` has of them: that of cargo's tool asks Rust's std, and that of the
//! tool without it the C library. `crates/pkcs1_tool/beside.sh` compares what both do.

use super::alloc::Global;
use super::path::{Path, PathBuf};
use super::{io, system};

/// How a file is opened. `ffi/lib/os.c` has the same numbers, but for the last.
#[derive(Clone, Copy)]
pub enum How {
    /// For reading.
    Read = 0,
    /// For writing.
    Write = 1,
    /// For writing, if nothing is there.
    CreateNew = 2,
    /// For writing, and empties what is there. Tests do so, and the tool never does.
    Empty = 3,
}

/// What stands at a path.
#[derive(Clone, Copy, PartialEq, Eq)]
pub enum Kind {
    Regular,
    Link,
    Other,
}

/// What is known of a file. `ffi/lib/os.c` has the same struct.
#[derive(Clone, Copy, Default)]
#[repr(C)]
pub struct Found {
    pub device: u64,
    pub number: u64,
    pub len: u64,
    pub mode: u32,
}

/// Handles of the runtime.
pub mod rt {
    use super::fs::OpenFile;
    use super::{Global, How, Path, PathBuf, io, system};

    /// Opens files.
    pub trait Files {
        type File: io::Read + io::Write + OpenFile;

        /// Opens a file. The mode is that of a file that is created.
        fn open_file(&self, how: How, mode: u32, path: Path<'_>) -> io::Result<Self::File>;

        /// The path of the file that goes through no link.
        fn canonicalize(&self, alloc: Global, path: &str) -> io::Result<PathBuf>;
    }

    impl Files for super::super::HostRuntime {
        type File = system::File;

        fn open_file(&self, how: How, mode: u32, path: Path<'_>) -> io::Result<system::File> {
            system::open(path, how, mode)
        }

        fn canonicalize(&self, alloc: Global, path: &str) -> io::Result<PathBuf> {
            system::real_path(alloc, Path::new(path))
        }
    }

    impl<R: Files> Files for &R {
        type File = R::File;

        fn open_file(&self, how: How, mode: u32, path: Path<'_>) -> io::Result<R::File> {
            (**self).open_file(how, mode, path)
        }

        fn canonicalize(&self, alloc: Global, path: &str) -> io::Result<PathBuf> {
            (**self).canonicalize(alloc, path)
        }
    }
}

/// Random bytes.
pub mod random {
    use super::{io, system};

    /// Gives bytes that others don't foresee.
    pub trait RandomSource {
        /// Fills the room with them.
        fn fill_bytes(&self, room: &mut [u8]) -> io::Result<()>;
    }

    impl RandomSource for super::super::HostRuntime {
        fn fill_bytes(&self, room: &mut [u8]) -> io::Result<()> {
            system::fill_random(room)
        }
    }

    impl<R: RandomSource> RandomSource for &R {
        fn fill_bytes(&self, room: &mut [u8]) -> io::Result<()> {
            (**self).fill_bytes(room)
        }
    }
}

/// Files.
pub mod fs {
    use super::rt::Files;
    use super::{Found, How, Kind, Path, io, system};

    /// Opens and creates files by a handle.
    pub struct File;

    impl File {
        pub fn open<Rt: Files>(rt: &Rt, path: Path<'_>) -> io::Result<Rt::File> {
            rt.open_file(How::Read, 0, path)
        }

        pub fn create<Rt: Files>(rt: &Rt, path: Path<'_>) -> io::Result<Rt::File> {
            rt.open_file(How::Empty, 0o666, path)
        }
    }

    /// How a file is opened.
    pub struct OpenOptions {
        how: How,
        pub(super) mode: u32,
    }

    impl OpenOptions {
        pub fn new() -> OpenOptions {
            OpenOptions { how: How::Read, mode: 0o666 }
        }

        fn asks(&mut self, how: How, is_asked: bool) -> &mut OpenOptions {
            if is_asked {
                self.how = how;
            }
            self
        }

        pub fn write(&mut self, write: bool) -> &mut OpenOptions {
            self.asks(How::Write, write)
        }

        /// After `write`.
        pub fn create_new(&mut self, create_new: bool) -> &mut OpenOptions {
            self.asks(How::CreateNew, create_new)
        }

        pub fn open<Rt: Files>(&self, rt: &Rt, path: Path<'_>) -> io::Result<Rt::File> {
            rt.open_file(self.how, self.mode, path)
        }
    }

    /// The bits of a mode.
    pub struct Permissions(pub(super) u32);

    /// What an open file can do beside reading and writing.
    pub trait OpenFile {
        fn metadata(&self) -> io::Result<Metadata>;

        fn sync_all(&self) -> io::Result<()>;

        fn set_permissions(&self, permissions: Permissions) -> io::Result<()>;
    }

    impl OpenFile for system::File {
        fn metadata(&self) -> io::Result<Metadata> {
            system::look_at(self).map(Metadata)
        }

        fn sync_all(&self) -> io::Result<()> {
            system::sync(self)
        }

        fn set_permissions(&self, permissions: Permissions) -> io::Result<()> {
            system::set_mode(self, permissions.0)
        }
    }

    /// What is known of a file.
    pub struct Metadata(pub(super) (Kind, Found));

    impl Metadata {
        pub fn is_file(&self) -> bool {
            self.0.0 == Kind::Regular
        }

        pub fn is_symlink(&self) -> bool {
            self.0.0 == Kind::Link
        }

        pub fn len(&self) -> u64 {
            self.0.1.len
        }
    }

    /// Of the file that a link names, if one stands there.
    pub fn metadata<Rt>(_rt: &Rt, path: Path<'_>) -> io::Result<Metadata> {
        system::look(path, true).map(Metadata)
    }

    /// Of a link itself, if one stands there.
    pub fn symlink_metadata<Rt>(_rt: &Rt, path: Path<'_>) -> io::Result<Metadata> {
        system::look(path, false).map(Metadata)
    }

    pub fn rename<Rt>(_rt: &Rt, from: Path<'_>, to: Path<'_>) -> io::Result<()> {
        system::rename(from, to)
    }

    pub fn remove_file<Rt>(_rt: &Rt, path: Path<'_>) -> io::Result<()> {
        system::remove(path)
    }
}

/// What Unix knows of files.
pub mod os {
    pub mod unix {
        pub mod fs {
            use super::super::super::fs::{Metadata, OpenOptions, Permissions};

            /// The numbers of a file that is there.
            pub trait MetadataExt {
                fn dev(&self) -> u64;

                fn ino(&self) -> u64;

                fn mode(&self) -> u32;
            }

            impl MetadataExt for Metadata {
                fn dev(&self) -> u64 {
                    self.0.1.device
                }

                fn ino(&self) -> u64 {
                    self.0.1.number
                }

                fn mode(&self) -> u32 {
                    self.0.1.mode
                }
            }

            /// Rights of a mode.
            pub trait PermissionsExt {
                fn from_mode(mode: u32) -> Self;
            }

            impl PermissionsExt for Permissions {
                fn from_mode(mode: u32) -> Permissions {
                    Permissions(mode)
                }
            }

            /// The mode of a file that is created.
            pub trait OpenOptionsExt {
                fn mode(&mut self, mode: u32) -> &mut OpenOptions;
            }

            impl OpenOptionsExt for OpenOptions {
                fn mode(&mut self, mode: u32) -> &mut OpenOptions {
                    self.mode = mode;
                    self
                }
            }
        }
    }
}
