//! `doubt`: makes a log that lost its tail fit its mark again, with what is lost "not known".

use std::fs::OpenOptions;
use std::path::Path;
use std::time::Duration;

use crate::arguments::Arguments;
use crate::disk;
use crate::format::SECTOR;
use crate::lock;
use crate::log_file;
use crate::loss::Loss;
use crate::mark::{self, Mark};
use crate::sectors;
use crate::status::{Failure, DONE};
use crate::streams::Streams;

/// What the sector of doubt says.
const SENTENCE: &[u8] = b"skywimple doubt: the log's tail was lost. \
    What was stored in this sector and in the blank ones before it is not known.\n";

pub fn run(arguments: &Arguments, streams: &mut Streams) -> Result<u8, Failure> {
    let path = arguments.path(0);
    mark::not_a_mark(path)?;
    Mark::require(path)?;
    let mut options = OpenOptions::new();
    let options = options.read(true).write(true).create(true).truncate(false);
    let file = lock::open(options, path, Duration::ZERO, streams)?;
    // Again, now that no writer can renew it.
    let mark = Mark::require(path)?;
    let failed = |e| Failure::disk("mend", path, &e);

    let loaded = log_file::load(&file, path, Some(mark), streams)?;
    let length = loaded.bytes.len();
    let marked = mark.sectors * SECTOR;
    let loss = Loss::new(mark, Some(length as u64), loaded.used);
    if loss.cut() {
        let zeros = vec![0; marked - length];
        disk::write(&file, &zeros, length as u64).map_err(failed)?;
    }
    if loaded.used < mark.used {
        let at = (mark.used - 1) * SECTOR;
        let doubt = sectors::unsound(SENTENCE);
        disk::write(&file, &doubt, at as u64).map_err(failed)?;
    }
    if loss.any() {
        disk::sync(&file).map_err(failed)?;
        mark::sync_folder(&mark::path_of(path)).map_err(failed)?;
    }
    streams.answer(answer(path, &loss).as_bytes())?;
    Ok(DONE)
}

fn answer(path: &Path, loss: &Loss) -> String {
    let log = path.display();
    let done = match loss.sectors() {
        _ if !loss.any() => "it fits its mark, and nothing was written",
        0 => "the file has its length again",
        _ => "what was there is \"not known\" now, and storing it again heals it",
    };
    format!("{log}: {}; {done}\n", loss.words())
}
