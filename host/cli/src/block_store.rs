//! A log that files are written to, tree by tree, and the reading back of what was written.

use std::io::Read;
use std::path::Path;

use boundary::{cut, fill, sha1, Refusal};

use crate::contents;
use crate::date::Dates;
use crate::entry;
use crate::escape;
use crate::format::{sectors_of, Score};
use crate::progress::Progress;
use crate::session::{Answers, Client};
use crate::status::{Failure, INPUT_OUTPUT};
use crate::streams::Streams;
use crate::tree_writer::{self, Ended, Shape, Store, Written};
use crate::words;
use crate::writer::Writer;

/// What is told where the log fails.
const UNSETTLED: &str =
    "Run the command again: what was stored before is found and not stored twice.";

pub struct BlockStore {
    log: Writer,
    client: Client,
    progress: Progress,
}

/// What is being written: its name, and what progress calls it.
#[derive(Clone, Copy)]
pub struct Subject<'a> {
    pub name: &'a Path,
    pub doing: &'a str,
}

impl BlockStore {
    pub fn open(
        path: &Path,
        adopt: bool,
        dates: Dates,
        streams: &mut Streams,
    ) -> Result<BlockStore, Failure> {
        let mut log = Writer::open(path, adopt, streams)?.dated(dates);
        Ok(BlockStore {
            client: Client::greet_on_disk(&mut log, streams)?,
            log,
            progress: Progress::start(),
        })
    }

    /// Writes all that a source has as a tree.
    pub fn write(
        &mut self,
        shape: &Shape,
        source: &mut dyn Read,
        subject: Subject,
        streams: &mut Streams,
    ) -> Result<Written, Failure> {
        let mut storing = Storing {
            log: self,
            subject,
            streams,
            stored: 0,
        };
        let written = tree_writer::write(shape, source, &mut storing);
        written.map_err(|ended| match ended {
            Ended::Source(e) => Failure::disk("read", subject.name, &e),
            Ended::Store(failure) => failure,
            Ended::Refused(refusal) => Failure::refused_about(refusal, subject.name.as_os_str()),
        })
    }

    /// Writes a slice of at most one leaf as a file. Where it is refused, the blocks before it are on disk
    /// and stay.
    fn write_leaf(
        &mut self,
        shape: &Shape,
        slice: &[u8],
        subject: Subject,
        streams: &mut Streams,
    ) -> Result<[u8; entry::LENGTH], Failure> {
        let written = self.log.write_leaf(slice, shape.sizes(), streams);
        match written.map_err(|failure| failure.and(UNSETTLED))? {
            Ok(entry) => Ok(entry),
            Err(refusal) => {
                self.settle()?;
                let length = cut(13, slice).unwrap_or(slice.len());
                Err(self.refused(refusal, length, subject))
            }
        }
    }

    /// Stores one block. Where it is refused, those before it are on disk and stay.
    pub fn store(
        &mut self,
        kind: u8,
        block: &[u8],
        subject: Subject,
        streams: &mut Streams,
    ) -> Result<Score, Failure> {
        let stored = self.client.store(&mut self.log, kind, block, streams);
        match stored.map_err(|failure| failure.and(UNSETTLED))? {
            Ok(score) => Ok(score),
            Err(refusal) => {
                self.settle()?;
                Err(self.refused(refusal, block.len(), subject))
            }
        }
    }

    /// How many sectors of the log are used, without what waits.
    pub fn used(&self) -> usize {
        self.log.sectors().1
    }

    /// Has all that was stored on disk.
    pub fn settle(&mut self) -> Result<(), Failure> {
        let settled = self.log.settle();
        settled.map_err(|failure| failure.and(UNSETTLED))
    }

    /// Has all that was stored on disk, and ends the writing.
    pub fn finish(mut self, streams: &mut Streams) -> Result<(), Failure> {
        self.settle()?;
        streams.clear_progress();
        Ok(())
    }

    fn refused(&self, refusal: Refusal, length: usize, subject: Subject) -> Failure {
        let words = match refusal {
            Refusal::NoRoom => {
                let (sectors, used) = self.log.sectors();
                let path = escape::quoted(self.log.path());
                let needed = sectors_of(length);
                words::full(&path, sectors, used, needed)
            }
            refusal => words::refusal(refusal),
        };
        let words = format!("{}: {}", subject.name.display(), words::midway(&words));
        Failure::new(refusal.number(), words)
    }
}

/// The log while one thing is written to it, with its progress.
struct Storing<'a, 'b> {
    log: &'a mut BlockStore,
    subject: Subject<'a>,
    streams: &'a mut Streams<'b>,
    stored: usize,
}

impl Storing<'_, '_> {
    /// So many bytes more are stored.
    fn show(&mut self, length: usize) {
        self.stored += length;
        let (doing, stored) = (self.subject.doing, self.stored);
        let progress = &mut self.log.progress;
        progress.show_before(self.streams, || format!("{doing}: {stored} bytes stored"));
    }
}

impl Store for Storing<'_, '_> {
    type Error = Failure;

    fn store(&mut self, kind: u8, block: &[u8]) -> Result<Score, Failure> {
        let score = self.log.store(kind, block, self.subject, self.streams)?;
        self.show(block.len());
        Ok(score)
    }

    fn write_leaf(&mut self, shape: &Shape, slice: &[u8]) -> Result<[u8; entry::LENGTH], Failure> {
        let log = &mut *self.log;
        let entry = log.write_leaf(shape, slice, self.subject, self.streams)?;
        self.show(slice.len());
        Ok(entry)
    }
}

/// Whether a written file reads back as it was. A failure where it does not.
pub fn reads_back(
    log: &[u8],
    written: &Written,
    name: &Path,
    mut show: impl FnMut(u64),
) -> Result<(), Failure> {
    let size = contents::size(&written.entry);
    let mut buffer = vec![0; size.min(written.leaf as u64) as usize];
    let mut offset = 0;
    for leaf in &written.leaves {
        let length = (size - offset).min(written.leaf as u64);
        let buffer = &mut buffer[..length as usize];
        let filled = fill(log, &[], &written.entry, offset, buffer);
        if filled.outcome.is_err() || filled.count < buffer.len() || sha1(buffer) != *leaf {
            return Err(differs(name, offset));
        }
        offset += length;
        show(offset);
    }
    match offset == size {
        true => Ok(()),
        false => Err(differs(name, offset)),
    }
}

fn differs(name: &Path, offset: u64) -> Failure {
    let words = format!(
        "{} was stored, but does not read back from offset {offset} on as it was: the log was \
         damaged meanwhile. Run the command again.",
        name.display()
    );
    Failure::new(INPUT_OUTPUT, words)
}

#[cfg(test)]
mod tests {
    use super::*;
    use crate::format::SECTOR;
    use crate::tree_writer::{By, FILE};

    /// Whatever sector is damaged, and whatever else the entry leads to: it is seen.
    #[test]
    fn what_does_not_read_back() {
        let mut log = vec![0; 400 * SECTOR];
        let mut client = Client::greet(&mut log).unwrap();
        let bytes: Vec<u8> = (0..100_000_u32).map(|at| (at % 251) as u8).collect();
        let mut store = By(|kind, block: &[u8]| client.write(&mut log, kind, block));
        let mut written = tree_writer::write(&FILE, &mut &bytes[..], &mut store).unwrap();
        let name = Path::new("file");
        let check = |log: &[u8], written: &Written| {
            let mut shown = Vec::new();
            let checked = reads_back(log, written, name, |bytes| shown.push(bytes));
            checked.map(|()| shown).map_err(|failure| failure.words)
        };
        assert_eq!(check(&log, &written), Ok(vec![57_344, 100_000]));
        let used = crate::format::used(&log);
        for sector in 0..used {
            let mut damaged = log.clone();
            damaged[sector * SECTOR + 300] ^= 1;
            let words = check(&damaged, &written).unwrap_err();
            assert!(words.starts_with("file was stored, but does not read back"));
        }
        let last = written.leaves.pop().unwrap();
        assert!(check(&log, &written).unwrap_err().contains("offset 57344"));
        written.leaves.push(sha1(b"another"));
        assert!(check(&log, &written).unwrap_err().contains("offset 57344"));
        *written.leaves.last_mut().unwrap() = last;
        assert!(check(&log, &written).is_ok());
    }
}
