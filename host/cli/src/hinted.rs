//! One block of a long log, read without the rest of it.
//!
//! A read by index looks first at the sectors that the index names for the block, and answers with the first
//! block there that is sound. So the proved call is lent a log that has the first of these places as it is on
//! disk and is blank elsewhere. Where the block is sound at that place, the answer is that of the whole log
//! with the same hints (`ReadSuffices` in `crates/one_block`). Where it is not, nothing is said: then the whole
//! log is to be read, and its sectors that cannot be.

use std::fs::File;
use std::path::Path;

use crate::format::{allowed, Score, BLANK, MOST_PARTS, SECTOR};
use crate::index_file;
use crate::mark::{self, Found, Mark};
use crate::sectors::{self, Loaded};
use crate::session::Client;

/// A block's bytes, where the index beside a log that fits its mark leads to it.
pub fn read(path: &Path, kind: u8, score: &Score, count: u16) -> Option<Vec<u8>> {
    let hints = index_file::hints(path, kind, score);
    let first = index_file::first_hint(&hints)?;
    // The mark first: then an append that goes on meanwhile never looks like a loss.
    let Ok(Found::Good(mark)) = Mark::find(&mark::path_of(path)) else {
        return None;
    };
    let file = File::open(path).ok()?;
    if first >= mark.used || !fits(&file, mark) {
        return None;
    }
    // What stands behind the mark may not be on disk.
    let end = mark.used.min(first + MOST_PARTS);
    let block = load(&file, first, end)?;
    let mut log = vec![0; end * SECTOR];
    log[first * SECTOR..].copy_from_slice(&block);
    // At that very place: a copy behind it might not be what the whole log finds.
    let found = boundary::look_up_by(&log, &[], &hints, kind, score).ok()?;
    if found.sector != first {
        return None;
    }
    let mut client = Client::greet(&mut log).ok()?.with_hints(hints);
    let read = client.read(&mut log, kind, score, count);
    read.ok().map(<[u8]>::to_vec)
}

/// Whether the log has a lawful length and all that its mark says: its last marked sector is not blank.
fn fits(file: &File, mark: Mark) -> bool {
    let length = file.metadata().map_or(0, |found| found.len());
    let last = load(file, mark.used - 1, mark.used);
    let there = last.is_some_and(|sector| sector != BLANK);
    there && allowed(length) && length >= (mark.sectors * SECTOR) as u64
}

/// Some sectors of a file, where all of them can be read.
fn load(file: &File, start: usize, end: usize) -> Option<Vec<u8>> {
    let length = (end - start) * SECTOR;
    let Loaded {
        bytes, unreadable, ..
    } = sectors::load_from(file, (start * SECTOR) as u64, length);
    (unreadable.is_empty() && bytes.len() == length).then_some(bytes)
}
