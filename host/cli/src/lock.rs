//! The writers' lock, and whether a log is still the file that was locked.

use std::fs::{self, File, Metadata, OpenOptions, TryLockError};
use std::os::unix::fs::MetadataExt;
use std::path::Path;
use std::thread;
use std::time::{Duration, Instant};

use crate::escape;
use crate::status::{Failure, BUSY, INPUT_OUTPUT, UNFIT};
use crate::streams::Streams;

/// How long the lock is left alone after it was found taken.
const PAUSE: Duration = Duration::from_millis(20);

/// Opens a log and takes its lock. Another writer may hold it for so long.
pub fn open(
    options: &OpenOptions,
    path: &Path,
    wait: Duration,
    streams: &mut Streams,
) -> Result<File, Failure> {
    let file = options.open(path).map_err(|e| Failure::open(path, &e))?;
    let start = Instant::now();
    loop {
        match take(&file, path) {
            Err(taken) if taken.status == BUSY && start.elapsed() < wait => {}
            taken => {
                streams.clear_progress();
                taken?;
                break;
            }
        }
        if streams.err_terminal {
            let (waited, most) = (start.elapsed().as_secs(), wait.as_secs());
            streams.show_progress(&format!("waiting for another writer: {waited} of {most} s"));
        }
        thread::sleep(PAUSE.min(wait));
    }
    in_place(&file, path)?;
    Ok(file)
}

/// Takes the writers' lock, or fails at once. It is free again when the file is closed.
pub fn take(file: &File, path: &Path) -> Result<(), Failure> {
    match file.try_lock() {
        Ok(()) => Ok(()),
        Err(TryLockError::WouldBlock) => {
            let words = format!(
                "another writer holds {}. Wait until it has ended (`serve --wait SECONDS` does); \
                 reading (get, read, search, restore, serve --read-only) goes on meanwhile.",
                path.display()
            );
            Err(Failure::new(BUSY, words))
        }
        Err(TryLockError::Error(e)) => Err(Failure::disk("lock", path, &e)),
    }
}

/// Fails unless the path leads to this file: the lock belongs to the file, the mark to the path.
pub fn in_place(file: &File, path: &Path) -> Result<(), Failure> {
    match is_at(file, path) {
        true => Ok(()),
        false => Err(replaced(path)),
    }
}

/// Whether the path leads to this file.
pub fn is_at(file: &File, path: &Path) -> bool {
    let identity = |file: Metadata| (file.dev(), file.ino());
    let opened = file.metadata().map(identity);
    let found = fs::metadata(path).map(identity);
    matches!((opened, found), (Ok(opened), Ok(found)) if opened == found)
}

pub fn replaced(path: &Path) -> Failure {
    let words = format!(
        "{} was replaced while this program was writing it, or moved away. Put the log and its mark \
         back, and move or replace a log only while no writer runs.",
        path.display()
    );
    Failure::new(INPUT_OUTPUT, words)
}

/// Fails where the log has a second name: its mark stands beside one of them only.
pub fn one_name(file: &File, path: &Path) -> Result<(), Failure> {
    let found = file.metadata();
    let found = found.map_err(|e| Failure::disk("look at", path, &e))?;
    let names = found.nlink();
    if names < 2 {
        return Ok(());
    }
    let words = format!(
        "{} is a file with {names} names (hard links), and its mark stands beside one of them \
         only, so it is not written. Find the names with `find / -samefile {}`, keep the \
         one that the mark stands beside and remove the others; a symbolic link may take their \
         place.",
        path.display(),
        escape::quoted(path)
    );
    Err(Failure::new(UNFIT, words))
}

pub fn changed(path: &Path) -> Failure {
    let words = format!(
        "{} was changed by another program while this one was writing it: the next sectors are \
         cut off or no longer blank. Nothing was written there. Find that program, and restore the \
         log from a copy.",
        path.display()
    );
    Failure::new(INPUT_OUTPUT, words)
}
