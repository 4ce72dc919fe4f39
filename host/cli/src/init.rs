//! `init`: a new log, all zeros, and its mark.

use std::fs::{self, File};
use std::io;
use std::path::Path;

use boundary::Refusal;

use crate::arguments::Arguments;
use crate::disk;
use crate::format::{MOST_SECTORS, SECTOR};
use crate::interrupt::Held;
use crate::lock;
use crate::mark::{self, Mark};
use crate::status::{Failure, DONE, EXISTS};
use crate::streams::Streams;

const INTERRUPTED: &str = "interrupted; nothing is left half made";
/// Sectors that are written at once.
const PIECE: usize = 2048;

pub fn run(arguments: &Arguments, _: &mut Streams) -> Result<u8, Failure> {
    let path = arguments.path(0);
    let Some(sectors) = arguments.number("--sectors")? else {
        return Err(Failure::usage("--sectors is missing"));
    };
    let sectors = usize::try_from(sectors).unwrap_or(usize::MAX);
    if sectors > MOST_SECTORS {
        let mebibytes = MOST_SECTORS * SECTOR / (1024 * 1024);
        let mut failure = Failure::refused(Refusal::LogLength);
        let most = format!("--sectors is at most {MOST_SECTORS} ({mebibytes} MiB): ");
        failure.words.insert_str(0, &most);
        return Err(failure);
    }
    make(path, sectors).map(|()| DONE)
}

/// Makes a log of so many sectors, and its mark.
pub fn make(path: &Path, sectors: usize) -> Result<(), Failure> {
    let name = path.as_os_str().as_encoded_bytes();
    if name.ends_with(mark::SUFFIX.as_bytes()) {
        return Err(Failure::usage("a name that ends in .mark is a mark's name"));
    }
    let mark_path = mark::path_of(path);
    if fs::symlink_metadata(&mark_path).is_ok() {
        return Err(exists(&mark_path));
    }
    let held = Held::start();
    let file = disk::create(path).map_err(|e| match e.kind() {
        io::ErrorKind::AlreadyExists => exists(path),
        _ => Failure::disk("create", path, &e),
    })?;
    let mark = Mark { sectors, used: 0 };
    let made = lock::take(&file, path)
        .and_then(|()| blank(&file, path, sectors, &held))
        .and_then(|()| mark.write(&mark_path, &file).map(drop))
        .and_then(|()| held.check(INTERRUPTED));
    if made.is_err() {
        // Both are this call's own files.
        let _ = fs::remove_file(&mark_path);
        let _ = fs::remove_file(path);
    }
    made
}

/// Writes real zeros, so that the room is there, and has them on disk.
fn blank(file: &File, path: &Path, sectors: usize, held: &Held) -> Result<(), Failure> {
    let failed = |e| Failure::disk("write", path, &e);
    let zeros = vec![0; SECTOR * PIECE];
    for start in (0..sectors).step_by(PIECE) {
        held.check(INTERRUPTED)?;
        let piece = &zeros[..PIECE.min(sectors - start) * SECTOR];
        let written = disk::write(file, piece, (start * SECTOR) as u64);
        written.map_err(failed)?;
    }
    held.check(INTERRUPTED)?;
    disk::sync(file).map_err(failed)?;
    mark::sync_folder(path).map_err(failed)
}

fn exists(path: &Path) -> Failure {
    let words = format!(
        "{} is there already, and init never overwrites a file. Give another name, or move it away.",
        path.display()
    );
    Failure::new(EXISTS, words)
}
