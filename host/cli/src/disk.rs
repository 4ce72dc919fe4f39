//! What the program does to its files on disk. All of it goes through here, so that tests can have
//! each step fail, and can take away again what was not synced.

use std::fs::{self, File, OpenOptions};
use std::io::{self, ErrorKind};
use std::os::unix::fs::FileExt;
use std::path::Path;

#[cfg(test)]
use crate::faults;

/// A new file. Fails where there is one already.
pub fn create(path: &Path) -> io::Result<File> {
    #[cfg(test)]
    faults::create()?;
    File::create_new(path)
}

/// Opens a file, and nothing else of that name: the opening of a pipe would wait for its other end.
pub fn open_file(path: &Path, options: &OpenOptions) -> io::Result<File> {
    match fs::metadata(path)?.is_file() {
        true => options.open(path),
        false => Err(io::Error::new(ErrorKind::AlreadyExists, "it is not a file")),
    }
}

/// Reads some bytes of a file at a place, and gives their count.
pub fn read_at(file: &File, buffer: &mut [u8], at: u64) -> io::Result<usize> {
    #[cfg(test)]
    faults::read(buffer.len(), at)?;
    file.read_at(buffer, at)
}

/// The same of a mark's file.
pub fn read_mark(file: &File, buffer: &mut [u8], at: u64) -> io::Result<usize> {
    #[cfg(test)]
    faults::read_mark(at)?;
    file.read_at(buffer, at)
}

/// Writes all these bytes at a place of a file.
pub fn write(file: &File, bytes: &[u8], at: u64) -> io::Result<()> {
    #[cfg(test)]
    if let Some(written) = faults::write(file, bytes, at) {
        return written;
    }
    file.write_all_at(bytes, at)
}

/// Has the bytes of a file on disk.
pub fn sync_data(file: &File) -> io::Result<()> {
    #[cfg(test)]
    if let Some(synced) = faults::sync(file) {
        return synced;
    }
    file.sync_data()
}

/// Has a file with its length, owner and mode on disk.
pub fn sync(file: &File) -> io::Result<()> {
    #[cfg(test)]
    if let Some(synced) = faults::sync(file) {
        return synced;
    }
    file.sync_all()
}

/// Gives a file the name of another, which it replaces.
pub fn rename(from: &Path, to: &Path) -> io::Result<()> {
    #[cfg(test)]
    if let Some(renamed) = faults::rename(to, || fs::rename(from, to)) {
        return renamed;
    }
    fs::rename(from, to)
}

/// Gives a file another name. Fails where something has that name already.
pub fn rename_new(from: &Path, to: &Path) -> io::Result<()> {
    #[cfg(test)]
    if let Some(renamed) = faults::rename(to, || link_and_remove(from, to)) {
        return renamed;
    }
    link_and_remove(from, to)
}

/// A link never replaces anything. Where a file can have one name only, the other is looked for first.
fn link_and_remove(from: &Path, to: &Path) -> io::Result<()> {
    match fs::hard_link(from, to) {
        Ok(()) => fs::remove_file(from),
        Err(e)
            if matches!(
                e.kind(),
                ErrorKind::PermissionDenied | ErrorKind::Unsupported
            ) =>
        {
            match fs::symlink_metadata(to) {
                Ok(_) => Err(ErrorKind::AlreadyExists.into()),
                Err(_) => fs::rename(from, to),
            }
        }
        Err(e) => Err(e),
    }
}

/// Has a folder's own entries on disk.
pub fn sync_folder(folder: &Path) -> io::Result<()> {
    #[cfg(test)]
    if let Some(synced) = faults::sync_folder() {
        return synced;
    }
    File::open(folder)?.sync_all()
}
