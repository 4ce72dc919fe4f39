//! `read`: a file's bytes, through its hash tree.

use std::fs::File;
use std::io::{self, Read};
use std::path::Path;

use crate::arguments::Arguments;
use crate::contents::{self, Stopped};
use crate::entry::LENGTH as ENTRY;
use crate::hex;
use crate::progress::Progress;
use crate::reader;
use crate::status::{Failure, DONE};
use crate::streams::Streams;

pub fn run(arguments: &Arguments, streams: &mut Streams) -> Result<u8, Failure> {
    let entry = entry(arguments.path(1))?;
    let mut log = reader::read(arguments.path(0), arguments.flag("--adopt"), streams)?;
    let ended = copy(&log, &entry, streams);
    streams.clear_progress();
    streams.out.flush().map_err(Failure::output)?;
    let Some(stopped) = ended? else {
        return Ok(DONE);
    };
    let words = contents::stopped_words(&mut log, &entry, stopped);
    Err(Failure::new(stopped.refusal.number(), words))
}

/// Writes the file, up to its end or the first refused offset.
fn copy(log: &[u8], entry: &[u8], streams: &mut Streams) -> Result<Option<Stopped>, Failure> {
    let mut progress = Progress::start();
    let mut written = 0;
    contents::pieces(log, entry, |bytes| {
        streams.out.write_all(bytes).map_err(Failure::output)?;
        written += bytes.len();
        progress.show(streams, || {
            format!("{written} of {} bytes read", contents::size(entry))
        });
        Ok(())
    })
}

/// An entry from 80 hex digits, or else from the file of that name.
fn entry(word: &Path) -> Result<Vec<u8>, Failure> {
    if let Some(entry) = word.to_str().and_then(hex::decode::<ENTRY>) {
        return Ok(entry.to_vec());
    }
    let file = File::open(word).map_err(|e| {
        let failure = Failure::open(word, &e);
        let words = format!("an entry is 80 hex digits or a file: {}", failure.words);
        Failure::new(failure.status, words)
    })?;
    front(file).map_err(|e| Failure::disk("read", word, &e))
}

/// At most one byte more than an entry has: a longer one is refused all the same.
fn front(file: File) -> io::Result<Vec<u8>> {
    let mut bytes = Vec::new();
    file.take(ENTRY as u64 + 1).read_to_end(&mut bytes)?;
    Ok(bytes)
}
