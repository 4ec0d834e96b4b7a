// Made of crates/pkcs1_program/src/replace_std.rt by tools/erase/erase.py, and not to be edited.
//! The files of std as ones of which a new one can take the place of an old one.

use crate::rattle_std::prelude::format;
use crate::tool::pkcs1_program::replace::{Beside, Mode, ReplaceFiles, Target};
use crate::proved::der_core::{FromRead, Result, ToWrite};
use crate::rattle_std::alloc::{AllocError, Global};
use crate::rattle_std::fs::{File, Metadata, OpenFile, OpenOptions, Permissions};
use crate::rattle_std::io::Write;
use crate::rattle_std::os::unix::fs::{MetadataExt, OpenOptionsExt, PermissionsExt};
use crate::rattle_std::path::{Path, PathBuf};
use crate::rattle_std::random::RandomSource;
use crate::rattle_std::rt::Files;
use crate::rattle_std::{fs, io};

/// A file of std. Flushing it waits until the disk has what was written.
pub struct Synced<W> {
    file: W,
}

impl<W: Write + OpenFile> Write for Synced<W> {
    fn write(&mut self, bytes: &[u8]) -> io::Result<usize> {
        self.file.write(bytes)
    }

    fn flush(&mut self) -> io::Result<()> {
        self.file.flush()?;
        self.file.sync_all()
    }
}

/// The path of a new file in the same folder. Its name is random, so others can't take it first. Where there are no
/// random bytes it is the same each time.
fn new_path<Rt: RandomSource>(
    random: &Rt,
    alloc: Global,
    path: Path<'_>,
) -> crate::rattle_std::result::Result<PathBuf, AllocError> {
    let mut bytes = [0; 8];
    let _ = random.fill_bytes(&mut bytes);
    let name = format!(in alloc; ".pkcs1_tool.{:016x}", u64::from_be_bytes(bytes))?;
    path.with_file_name(alloc, name.as_str())
}

/// Whether this file is at the path.
fn is_at<Rt: Files>(files: &Rt, path: Path<'_>, file: &Metadata) -> bool {
    match fs::metadata(files, path) {
        Ok(found) => found.dev() == file.dev() && found.ino() == file.ino(),
        Err(_) => false,
    }
}

/// The path of a file at which no link stands: the one that is given or, of a link, the real one. `None` if it can't be
/// had, or another file is there, as where something is mounted over its folder.
fn real_path<Rt: Files>(
    files: &Rt,
    alloc: Global,
    path: Path<'_>,
    file: &Metadata,
) -> crate::rattle_std::result::Result<Option<PathBuf>, AllocError> {
    match fs::symlink_metadata(files, path) {
        Ok(at) if at.is_symlink() => {}
        Ok(_) => return Ok(Some(path.to_path_buf(alloc)?)),
        Err(_) => return Ok(None),
    }
    match files.canonicalize(alloc, path.as_str()) {
        Ok(real) if is_at(files, real.as_path(), file) => Ok(Some(real)),
        Err(error) if error.kind() == io::ErrorKind::OutOfMemory => Err(AllocError),
        _ => Ok(None),
    }
}

/// Whether the file can be opened for writing, which leaves it as it is.
fn is_writable<Rt: Files>(files: &Rt, path: Path<'_>) -> bool {
    OpenOptions::new().write(true).open(files, path).is_ok()
}

/// The same file, unless it is a regular one, which is never written in place.
fn unless_regular<W: OpenFile>(file: W) -> io::Result<W> {
    if file.metadata()?.is_file() {
        return Err(io::Error::from(io::ErrorKind::AlreadyExists));
    }
    Ok(file)
}

/// Creates a file with this mode where nothing is.
fn new_file<Rt: Files>(files: &Rt, path: Path<'_>, mode: Mode) -> io::Result<Rt::File> {
    let mut options = OpenOptions::new();
    options.write(true).create_new(true).mode(mode.bits);
    let file = options.open(files, path)?;
    if !mode.umask_takes {
        let _ = file.set_permissions(Permissions::from_mode(mode.bits));
    }
    Ok(file)
}

/// The folder of the file at the path.
fn folder_of(path: Path<'_>) -> Path<'_> {
    match path.parent() {
        Some(folder) if !folder.as_str().is_empty() => folder,
        _ => Path::new("."),
    }
}

/// Waits until the disk has what stands in the folder of the file at the path. Where the system doesn't know how to
/// wait for a folder, nothing is waited for.
fn sync_folder<Rt: Files>(files: &Rt, path: Path<'_>) -> io::Result<()> {
    match File::open(files, folder_of(path)) {
        Ok(folder) => folder.sync_all(),
        Err(error) if error.kind() == io::ErrorKind::Unsupported => Ok(()),
        Err(error) => Err(error),
    }
}

impl<Rt: Files + RandomSource> ReplaceFiles for Rt {
    type New = ToWrite<Synced<Rt::File>>;

    fn mode(&self, file: &FromRead<Rt::File>) -> u32 {
        match file.get_ref().metadata() {
            Ok(found) => found.mode(),
            Err(_) => 0o600,
        }
    }

    fn target(&mut self, alloc: Global, path: Path<'_>) -> crate::rattle_std::result::Result<Target, AllocError> {
        let (to, replaced) = match fs::metadata(&*self, path) {
            Ok(file) if !file.is_file() => return Ok(Target::InPlace),
            Ok(file) if !is_writable(&*self, path) => return Ok(Target::Refused),
            Ok(file) => match real_path(&*self, alloc, path, &file)? {
                Some(to) => (to, Some(file.mode())),
                None => return Ok(Target::Refused),
            },
            Err(error) if error.kind() == io::ErrorKind::NotFound => {
                match fs::symlink_metadata(&*self, path) {
                    Ok(_) => return Ok(Target::Dangling),
                    Err(error) if error.kind() == io::ErrorKind::NotFound => {
                        (path.to_path_buf(alloc)?, None)
                    }
                    Err(_) => return Ok(Target::Refused),
                }
            }
            Err(_) => return Ok(Target::Refused),
        };
        let path = new_path(&*self, alloc, to.as_path())?;
        Ok(Target::Beside(Beside { to, path, replaced }))
    }

    fn open_in_place(&mut self, path: Path<'_>) -> Result<ToWrite<Rt::File>> {
        let file = OpenOptions::new().write(true).open(&*self, path);
        ToWrite::created(file.and_then(unless_regular))
    }

    fn create_new(&mut self, path: Path<'_>, mode: Mode) -> Result<ToWrite<Synced<Rt::File>>> {
        ToWrite::created(new_file(&*self, path, mode).map(|file| Synced { file }))
    }

    fn rename(&mut self, from: Path<'_>, to: Path<'_>) -> io::Result<()> {
        fs::rename(&*self, from, to)
    }

    fn sync_name(&mut self, path: Path<'_>) -> io::Result<()> {
        sync_folder(&*self, path)
    }

    /// If nothing is there any more, it is as good as removed.
    fn remove(&mut self, path: Path<'_>) -> io::Result<()> {
        match fs::remove_file(&*self, path) {
            Err(error) if error.kind() == io::ErrorKind::NotFound => Ok(()),
            removed => removed,
        }
    }
}
