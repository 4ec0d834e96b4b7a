//! Readers and writers.

use super::{fmt, system};

/// What a call gives.
pub type Result<T> = core::result::Result<T, Error>;

/// What kind of error it is.
#[derive(Clone, Copy, Debug, PartialEq, Eq)]
pub enum ErrorKind {
    OutOfMemory,
    AlreadyExists,
    NotFound,
    Unsupported,
    Other,
}

/// Why a call failed.
#[derive(Clone, Copy, Debug)]
pub struct Error(ErrorKind);

impl Error {
    pub fn kind(&self) -> ErrorKind {
        self.0
    }
}

impl From<ErrorKind> for Error {
    fn from(kind: ErrorKind) -> Error {
        Error(kind)
    }
}

/// What can be read.
pub trait Read {
    /// Reads into the front of the room: how many octets, 0 at the end.
    fn read(&mut self, room: &mut [u8]) -> Result<usize>;
}

/// What can be written to.
pub trait Write {
    /// Writes a beginning of the octets: how many.
    fn write(&mut self, octets: &[u8]) -> Result<usize>;

    fn flush(&mut self) -> Result<()>;

    /// Writes all the octets.
    fn write_all(&mut self, octets: &[u8]) -> Result<()> {
        let mut rest = octets;
        while !rest.is_empty() {
            match self.write(rest)? {
                0 => return Err(ErrorKind::Other.into()),
                count => rest = rest.get(count..).ok_or(ErrorKind::Other)?,
            }
        }
        Ok(())
    }

    fn write_fmt(&mut self, text: fmt::Arguments<'_>) -> Result<()> {
        let mut out = Text { to: self, ended: Ok(()) };
        match fmt::write(&mut out, text) {
            Ok(()) => Ok(()),
            Err(_) => out.ended.and(Err(ErrorKind::Other.into())),
        }
    }
}

/// A writer of texts, which keeps the error of the other.
struct Text<'w, W: ?Sized> {
    to: &'w mut W,
    ended: Result<()>,
}

impl<W: Write + ?Sized> fmt::Write for Text<'_, W> {
    fn write_str(&mut self, text: &str) -> fmt::Result {
        self.ended = self.to.write_all(text.as_bytes());
        self.ended.map_err(|_| fmt::Error)
    }
}

/// The standard input, output or error: the file of this number.
pub struct Standard<const N: i32>;

impl<const N: i32> Read for Standard<N> {
    fn read(&mut self, room: &mut [u8]) -> Result<usize> {
        system::read(N, room)
    }
}

impl<const N: i32> Write for Standard<N> {
    fn write(&mut self, octets: &[u8]) -> Result<usize> {
        system::write(N, octets)
    }

    fn flush(&mut self) -> Result<()> {
        Ok(())
    }
}

pub fn stderr() -> Standard<2> {
    Standard
}
