//! Files of keys and documents, read and written as `std` does.

use crate::rattle_std::path::Path;
use crate::rattle_std::rt::Files;
use crate::{Error, der};
use core::cell::Cell;
use core::fmt;
use std::fs::{File, OpenOptions};
use std::io;

/// Why a key or a document isn't read from a file, or written to one. `?` makes an `Error` of it, which says less.
#[derive(Debug)]
#[non_exhaustive]
pub enum FileError {
    /// A call of the system failed.
    Io(io::Error),
    /// The file holds no such value, the value has no encoding, or there is no memory.
    Value(Error),
}

impl FileError {
    fn held(&self) -> &(dyn core::error::Error + 'static) {
        match self {
            FileError::Io(error) => error,
            FileError::Value(error) => error,
        }
    }
}

impl fmt::Display for FileError {
    fn fmt(&self, f: &mut fmt::Formatter<'_>) -> fmt::Result {
        fmt::Display::fmt(self.held(), f)
    }
}

impl core::error::Error for FileError {
    fn source(&self) -> Option<&(dyn core::error::Error + 'static)> {
        self.held().source()
    }
}

impl From<Error> for FileError {
    fn from(error: Error) -> FileError {
        FileError::Value(error)
    }
}

impl From<FileError> for Error {
    /// `ErrorKind::File` of each `Io`.
    fn from(error: FileError) -> Error {
        match error {
            FileError::Io(_) => der::Error::new(der::ErrorKind::File).into(),
            FileError::Value(error) => error,
        }
    }
}

/// The files of the system. It keeps the error of the call that failed.
pub(crate) struct Host {
    is_secret: bool,
    fault: Cell<Option<io::Error>>,
}

impl Host {
    /// Calls with these files. If `is_secret`, only the owner may read and write those that are created.
    pub(crate) fn run<T>(is_secret: bool, call: impl FnOnce(&mut &Host) -> der::Result<T>) -> Result<T, FileError> {
        let host = Host { is_secret, fault: Cell::new(None) };
        call(&mut &host).map_err(|error| host.fault.take().map_or(FileError::Value(error.into()), FileError::Io))
    }

    /// Calls again, as long as a signal interrupts the call.
    fn again<T>(&self, mut call: impl FnMut() -> io::Result<T>) -> io::Result<T> {
        loop {
            match call() {
                Err(error) if error.kind() == io::ErrorKind::Interrupted => {}
                Err(error) => {
                    let kind = error.kind();
                    self.fault.set(Some(error));
                    return Err(kind.into());
                }
                done => return done,
            }
        }
    }
}

impl<'h> Files for &'h Host {
    type File = OpenFile<'h>;

    fn open_file(&self, path: Path<'_>) -> io::Result<OpenFile<'h>> {
        Ok(OpenFile { host: self, file: self.again(|| File::open(path.0))? })
    }

    fn create_file(&self, path: Path<'_>) -> io::Result<OpenFile<'h>> {
        let mut how = OpenOptions::new();
        how.write(true).create(true).truncate(true);
        #[cfg(unix)]
        if self.is_secret {
            std::os::unix::fs::OpenOptionsExt::mode(&mut how, 0o600);
        }
        Ok(OpenFile { host: self, file: self.again(|| how.open(path.0))? })
    }
}

/// A file that tells its host why a call failed.
pub(crate) struct OpenFile<'h> {
    host: &'h Host,
    file: File,
}

impl io::Read for OpenFile<'_> {
    fn read(&mut self, buf: &mut [u8]) -> io::Result<usize> {
        self.host.again(|| self.file.read(buf))
    }
}

impl io::Write for OpenFile<'_> {
    fn write(&mut self, buf: &[u8]) -> io::Result<usize> {
        self.host.again(|| match self.file.write(buf)? {
            0 if !buf.is_empty() => Err(io::ErrorKind::WriteZero.into()),
            count => Ok(count),
        })
    }

    fn flush(&mut self) -> io::Result<()> {
        self.host.again(|| self.file.flush())
    }
}

#[cfg(test)]
#[test]
fn what_a_signal_interrupts_begins_again() {
    let host = Host { is_secret: false, fault: Cell::new(None) };
    let mut calls = 0;
    let counted = host.again(|| {
        calls += 1;
        if calls < 4 { Err(io::ErrorKind::Interrupted.into()) } else { Ok(calls) }
    });
    assert!(counted.is_ok_and(|calls| calls == 4) && host.fault.take().is_none());
    let failed = host.again(|| Err::<(), _>(io::ErrorKind::NotFound.into())).unwrap_err();
    assert_eq!((failed.kind(), host.fault.take().unwrap().kind()), (io::ErrorKind::NotFound, io::ErrorKind::NotFound));
}
