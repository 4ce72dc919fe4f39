//! A log as a file, beside its mark.

use std::fs::{self, File};
use std::io;
use std::path::Path;

use boundary::Refusal;

use crate::disk;
use crate::escape;
use crate::format::{allowed, SECTOR};
use crate::loss::Loss;
use crate::mark::{self, Found, Mark};
use crate::progress::Progress;
use crate::sectors::{self, Loaded};
use crate::status::{Failure, MISSING};
use crate::streams::Streams;

/// Whether a log file is there. A mark without one means that it is lost.
pub fn is_file(path: &Path) -> Result<(), Failure> {
    mark::not_a_mark(path)?;
    match fs::metadata(path) {
        Ok(found) if found.is_file() => Ok(()),
        Ok(_) => Err(Failure::new(
            MISSING,
            format!(
                "{} is not a file. Give the path of a log, which `skywimple init` makes.",
                path.display()
            ),
        )),
        Err(e) if e.kind() == io::ErrorKind::NotFound => {
            if let Found::Good(mark) = Mark::find(&mark::path_of(path))? {
                return Err(Loss::new(mark, None, 0).failure(path));
            }
            let words = format!(
                "no such log: {}. `skywimple init {} --sectors N` makes one.",
                path.display(),
                escape::quoted(path)
            );
            Err(Failure::new(MISSING, words))
        }
        Err(e) => Err(Failure::open(path, &e)),
    }
}

/// Reads the whole log. Its length is tested before, against the mark and for refusal 3.
pub fn load(
    file: &File,
    path: &Path,
    mark: Option<Mark>,
    streams: &mut Streams,
) -> Result<Loaded, Failure> {
    let found = file.metadata();
    let length = found.map_err(|e| Failure::disk("read", path, &e))?.len();
    let short = mark.is_some_and(|mark| length < (mark.sectors * SECTOR) as u64);
    if !short && !allowed(length) {
        return Err(no_log(path, length, mark));
    }
    let mut progress = Progress::start();
    let read_at = |buffer: &mut [u8], at: u64| disk::read_at(file, buffer, at);
    let marked = mark.map_or(0, |mark| mark.used * SECTOR);
    let loaded = sectors::load(read_at, length, marked, |end| {
        progress.show_before(streams, || {
            format!(
                "reading {}: {} of {} MiB",
                path.display(),
                end >> 20,
                length >> 20
            )
        });
    });
    streams.clear_progress();
    if !loaded.unreadable.is_empty() {
        streams.tell(&format!(
            "sectors of {} that cannot be read: {}. They count as damaged; what was in them is \
             \"not known\".",
            path.display(),
            loaded.unreadable.len()
        ));
    }
    Ok(loaded)
}

/// Refusal 3. Beside a good mark it is known which length is right.
fn no_log(path: &Path, length: u64, mark: Option<Mark>) -> Failure {
    let mut failure = Failure::refused_about(Refusal::LogLength, path.as_os_str());
    if let Some(Mark { sectors, .. }) = mark {
        let marked = sectors * SECTOR;
        failure.words += &format!(
            " This file has {length} bytes, and its mark says {marked}, which are {sectors} \
             sectors. No block is marked as stored after them; cut the rest off with \
             `truncate -s {marked} {}`.",
            escape::quoted(path)
        );
    }
    failure
}

/// Whether the log has all that its mark says.
pub fn fits(path: &Path, mark: Mark, loaded: &Loaded) -> Result<(), Failure> {
    let loss = Loss::new(mark, Some(loaded.bytes.len() as u64), loaded.used);
    if loss.any() {
        return Err(loss.failure(path));
    }
    Ok(())
}
