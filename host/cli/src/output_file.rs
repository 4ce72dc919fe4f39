//! Files that a command writes beside a log: never the log itself, nor anything of another kind.

use std::fs::{self, File};
use std::io::Read;
use std::os::unix::fs::{FileTypeExt, MetadataExt};
use std::path::Path;

use crate::disk;
use crate::mark;
use crate::status::{Failure, EXISTS};
use crate::unique;

/// What an option writes.
pub struct Kind {
    pub option: &'static str,
    pub name: &'static str,
    /// What such a file may begin with.
    pub fronts: &'static [&'static str],
}

/// Whether a file is a log or its mark, by whatever name.
pub fn is_log(log: &Path, file: &Path) -> bool {
    let mark = mark::path_of(log);
    let identity = |path: &Path| fs::metadata(path).ok().map(|file| (file.dev(), file.ino()));
    let found = identity(file);
    let same = found.is_some() && [identity(log), identity(&mark)].contains(&found);
    same || mark::resolved(file) == mark
}

/// Fails where a file would be overwritten that is not of this kind.
pub fn may_write(log: &Path, file: &Path, kind: &Kind) -> Result<(), Failure> {
    let Kind { option, name, .. } = kind;
    if is_log(log, file) {
        let words = format!("{option} would overwrite the log: {}", file.display());
        return Err(Failure::new(EXISTS, words));
    }
    if holds_something_else(file, kind.fronts) {
        let words = format!(
            "{} is there already and no {name}, so it is not overwritten. Give {option} another \
             name, or move it away.",
            file.display()
        );
        return Err(Failure::new(EXISTS, words));
    }
    Ok(())
}

/// Puts these bytes in the place of a file, all or nothing, and on disk; the file before it stays until
/// then, and where this fails. Of a link it is the file that it leads to. A pipe is written to.
pub fn replace(file: &Path, bytes: &[u8], kind: &Kind) -> Result<(), Failure> {
    let like = fs::metadata(file).ok();
    if like.as_ref().is_some_and(|like| !like.is_file()) {
        return fs::write(file, bytes).map_err(|e| Failure::disk("write", file, &e));
    }
    let path = mark::resolved(file);
    let name = format!(".skywimple-{}-{}", kind.name, unique::name());
    let new = path.with_file_name(name);
    let replaced = disk::create(&new).and_then(|made| {
        let written = disk::write(&made, bytes, 0)
            .and_then(|()| like.map_or(Ok(()), |like| mark::keep_access(&made, &like)))
            .and_then(|()| disk::sync(&made))
            .and_then(|()| disk::rename(&new, &path));
        if written.is_err() {
            let _ = fs::remove_file(&new);
        }
        written
    });
    let synced = replaced.and_then(|()| mark::sync_folder(&path));
    synced.map_err(|e| Failure::disk("write", file, &e))
}

/// Whether a file is there that begins with none of these. Pipes and terminals hold nothing.
fn holds_something_else(path: &Path, fronts: &[&str]) -> bool {
    let Ok(kind) = fs::metadata(path).map(|file| file.file_type()) else {
        return false;
    };
    if kind.is_fifo() || kind.is_char_device() {
        return false;
    }
    let longest = fronts.iter().map(|front| front.len()).max().unwrap_or(0);
    let mut found = Vec::new();
    // Where nothing can be read, nobody knows what would be overwritten.
    let read = File::open(path).and_then(|file| file.take(longest as u64).read_to_end(&mut found));
    let begins = |front: &&str| found.starts_with(front.as_bytes());
    read.is_err() || !fronts.iter().any(begins)
}
