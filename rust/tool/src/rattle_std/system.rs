//! What the tool asks of the C library, and of `ffi/lib/os.c` over it.

use super::alloc::Global;
use super::files::{Found, How, Kind};
use super::io::{self, ErrorKind, Result};
use super::path::{Path, PathBuf};
use core::alloc::{GlobalAlloc, Layout};
use core::ffi::{CStr, c_char, c_int, c_uint, c_void};
use core::ptr::null_mut;

// A path, which ends with a zero octet, is only read. Of what is returned `count` below knows the meaning.
unsafe extern "C" {
    fn pkcs1_os_open(path: *const c_char, how: c_int, mode: c_uint) -> isize;
    fn pkcs1_os_read(file: c_int, room: *mut u8, len: usize) -> isize;
    fn pkcs1_os_write(file: c_int, octets: *const u8, len: usize) -> isize;
    safe fn pkcs1_os_sync(file: c_int) -> isize;
    safe fn pkcs1_os_set_mode(file: c_int, mode: c_uint) -> isize;
    safe fn pkcs1_os_close(file: c_int);
    fn pkcs1_os_look(path: *const c_char, through_link: c_int, found: *mut Found) -> isize;
    fn pkcs1_os_look_at(file: c_int, found: *mut Found) -> isize;
    fn pkcs1_os_real_path(path: *const c_char, room: *mut c_char) -> isize;
    fn pkcs1_os_rename(from: *const c_char, to: *const c_char) -> isize;
    fn pkcs1_os_remove(path: *const c_char) -> isize;
    fn pkcs1_os_random(room: *mut u8, len: usize) -> isize;
    safe fn malloc(len: usize) -> *mut c_void;
    fn realloc(old: *mut c_void, len: usize) -> *mut c_void;
    fn free(old: *mut c_void);
}

/// C's malloc.
struct Malloc;

/// What a block of malloc is aligned to, on each machine for which there is assembly.
const ALIGNED: usize = 16;

#[global_allocator]
static MALLOC: Malloc = Malloc;

// SAFETY: each block comes from malloc or realloc and goes back to realloc or free, which may be called at any time.
// None is handed out for an alignment that it may not have.
unsafe impl GlobalAlloc for Malloc {
    unsafe fn alloc(&self, layout: Layout) -> *mut u8 {
        if layout.align() > ALIGNED { null_mut() } else { malloc(layout.size()).cast() }
    }

    unsafe fn realloc(&self, old: *mut u8, _layout: Layout, len: usize) -> *mut u8 {
        // SAFETY: by the condition of this function the block is one of `alloc`, and `len` isn't 0.
        unsafe { realloc(old.cast(), len).cast() }
    }

    unsafe fn dealloc(&self, old: *mut u8, _layout: Layout) {
        // SAFETY: by the condition of this function the block is one of `alloc`.
        unsafe { free(old.cast()) }
    }
}

/// What `ffi/lib/os.c` returns where there was no memory, where a file is already, or where none is. Of another failure
/// it returns -1.
const NO_MEMORY: isize = -2;
const EXISTS: isize = -3;
const NOT_FOUND: isize = -4;

/// What a call returned, if it didn't fail.
fn count(returned: isize) -> Result<usize> {
    match usize::try_from(returned) {
        Ok(count) => Ok(count),
        Err(_) if returned == NO_MEMORY => Err(ErrorKind::OutOfMemory.into()),
        Err(_) if returned == EXISTS => Err(ErrorKind::AlreadyExists.into()),
        Err(_) if returned == NOT_FOUND => Err(ErrorKind::NotFound.into()),
        Err(_) => Err(ErrorKind::Other.into()),
    }
}

/// Whether a call that returns nothing failed.
fn done(returned: isize) -> Result<()> {
    count(returned).map(|_| ())
}

/// The octets of the longest path that Linux takes, with the zero octet behind it.
const LONGEST: usize = 4096;

/// A path as C takes it, on the stack.
struct Name([u8; LONGEST]);

impl Name {
    /// Fails if the path is too long, or has a zero octet.
    fn of(path: Path<'_>) -> Result<Name> {
        let mut name = Name([0; LONGEST]);
        name.0.get_mut(..path.0.len()).ok_or(ErrorKind::Other)?.copy_from_slice(path.0);
        if name.octets()? == path.0 { Ok(name) } else { Err(ErrorKind::Other.into()) }
    }

    /// What is in front of the first zero octet, which must be there.
    fn octets(&self) -> Result<&[u8]> {
        CStr::from_bytes_until_nul(&self.0).map(CStr::to_bytes).map_err(|_| ErrorKind::Other.into())
    }

    fn as_ptr(&self) -> *const c_char {
        self.0.as_ptr().cast()
    }
}

/// An open file.
pub struct File(c_int);

impl Drop for File {
    fn drop(&mut self) {
        pkcs1_os_close(self.0);
    }
}

impl io::Read for File {
    fn read(&mut self, room: &mut [u8]) -> Result<usize> {
        read(self.0, room)
    }
}

impl io::Write for File {
    fn write(&mut self, octets: &[u8]) -> Result<usize> {
        write(self.0, octets)
    }

    fn flush(&mut self) -> Result<()> {
        Ok(())
    }
}

/// Opens it. The mode is that of a file that is created.
pub fn open(path: Path<'_>, how: How, mode: u32) -> Result<File> {
    if let How::Empty = how {
        return Err(ErrorKind::Other.into());
    }
    let name = Name::of(path)?;
    // SAFETY: the name ends with a zero octet.
    let file = count(unsafe { pkcs1_os_open(name.as_ptr(), how as c_int, mode) })?;
    c_int::try_from(file).map(File).map_err(|_| ErrorKind::Other.into())
}

/// Waits until the disk has what it holds.
pub fn sync(file: &File) -> Result<()> {
    done(pkcs1_os_sync(file.0))
}

pub fn set_mode(file: &File, mode: u32) -> Result<()> {
    done(pkcs1_os_set_mode(file.0, mode))
}

/// Reads from the file of this number into the front of the room: how many octets, 0 at the end.
pub fn read(file: c_int, room: &mut [u8]) -> Result<usize> {
    // SAFETY: the room has `len` octets, which may be written.
    count(unsafe { pkcs1_os_read(file, room.as_mut_ptr(), room.len()) })
}

/// Writes a beginning of the octets to the file of this number: how many.
pub fn write(file: c_int, octets: &[u8]) -> Result<usize> {
    // SAFETY: there are `len` octets, which may be read.
    count(unsafe { pkcs1_os_write(file, octets.as_ptr(), octets.len()) })
}

/// The kind of this number.
fn kind(number: usize) -> Kind {
    match number {
        0 => Kind::Regular,
        1 => Kind::Link,
        _ => Kind::Other,
    }
}

/// The kind of a file, and what is known of it.
pub fn look_at(file: &File) -> Result<(Kind, Found)> {
    let mut found = Found::default();
    // SAFETY: what is found may be written.
    let number = count(unsafe { pkcs1_os_look_at(file.0, &mut found) })?;
    Ok((kind(number), found))
}

/// Of what stands at the path, or of what a link there names.
pub fn look(path: Path<'_>, through_link: bool) -> Result<(Kind, Found)> {
    let (name, mut found) = (Name::of(path)?, Found::default());
    // SAFETY: the name ends with a zero octet, and what is found may be written.
    let number = count(unsafe { pkcs1_os_look(name.as_ptr(), through_link.into(), &mut found) })?;
    Ok((kind(number), found))
}

/// The path of the same file that goes through no link.
pub fn real_path(alloc: Global, path: Path<'_>) -> Result<PathBuf> {
    let (name, mut real) = (Name::of(path)?, Name([0; LONGEST]));
    // SAFETY: the name ends with a zero octet, and the room has the octets of the longest path.
    done(unsafe { pkcs1_os_real_path(name.as_ptr(), real.0.as_mut_ptr().cast()) })?;
    Ok(Path(real.octets()?).to_path_buf(alloc)?)
}

pub fn rename(from: Path<'_>, to: Path<'_>) -> Result<()> {
    let (from, to) = (Name::of(from)?, Name::of(to)?);
    // SAFETY: both names end with a zero octet.
    done(unsafe { pkcs1_os_rename(from.as_ptr(), to.as_ptr()) })
}

pub fn remove(path: Path<'_>) -> Result<()> {
    let name = Name::of(path)?;
    // SAFETY: the name ends with a zero octet.
    done(unsafe { pkcs1_os_remove(name.as_ptr()) })
}

/// Fills the room with random bytes of the system: at most 256.
pub fn fill_random(room: &mut [u8]) -> Result<()> {
    // SAFETY: the room has `len` octets, which may be written.
    done(unsafe { pkcs1_os_random(room.as_mut_ptr(), room.len()) })
}

/// The words of the command line.
#[derive(Clone, Copy)]
pub struct Words {
    count: usize,
    first: *const *const c_char,
}

impl Words {
    /// # Safety
    /// The arguments are those of C's `main`: as many texts of C as `count` says, which nothing changes.
    pub unsafe fn new(count: c_int, first: *const *const c_char) -> Words {
        Words { count: usize::try_from(count).unwrap_or(0), first }
    }

    /// The word of this number. The first is 0.
    pub fn get(&self, number: usize) -> Option<&'static [u8]> {
        if number >= self.count {
            return None;
        }
        // SAFETY: by the condition of `new` a text of C stands there.
        Some(unsafe { CStr::from_ptr(*self.first.add(number)) }.to_bytes())
    }
}
