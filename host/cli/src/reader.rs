//! Logs that are read: once, or by a server that only reads, as many as like and beside a writer.

use std::fs::File;
use std::path::{Path, PathBuf};

use boundary::Session;

use crate::blocks;
use crate::date::NO_DAY;
use crate::format::{used, SECTOR};
use crate::held;
use crate::index_file::Index;
use crate::knowledge::{Knowledge, Lent};
use crate::lock;
use crate::log_file::{fits, is_file, load};
use crate::mark::Mark;
use crate::sectors::{self, Loaded};
use crate::session::{self, Answers, Served};
use crate::status::Failure;
use crate::streams::Streams;
use crate::writer::Writer;

/// Reads a log that fits its mark. With `adopt`, a log without a good mark gets one first.
pub fn read(path: &Path, adopt: bool, streams: &mut Streams) -> Result<Vec<u8>, Failure> {
    if adopt {
        return Ok(Writer::open(path, true, streams)?.bytes());
    }
    is_file(path)?;
    // The mark first: then an append that goes on meanwhile never looks like a loss.
    let mark = Mark::require(path)?;
    let file = File::open(path).map_err(|e| Failure::open(path, &e))?;
    let loaded = load(&file, path, Some(mark), streams)?;
    fits(path, mark, &loaded)?;
    if loaded.seen() > mark.used {
        // A crash came before the mark: without it, a block that is read now could later be lost
        // unseen. Where this reader can't write, or a writer is at work, it goes on.
        if let Ok(log) = Writer::open(path, false, streams) {
            return Ok(log.bytes());
        }
    }
    Ok(loaded.bytes)
}

/// A log of which nothing is ever written, nor its mark. It is lent with an empty waiting part, and
/// without room behind its used part, so the proved call itself refuses a new block, with 14. To a
/// write it is lent up to its mark only: what a crash left behind that may not be on disk, and nobody
/// here can have it there.
pub struct Reader {
    file: File,
    path: PathBuf,
    mark: Mark,
    bytes: Vec<u8>,
    /// The index beside it, as it was when the log was opened, and with what came since.
    index: Index,
    /// What is known of both from the last request that was lent the whole log.
    knowledge: Knowledge,
}

impl Reader {
    pub fn open(path: &Path, streams: &mut Streams) -> Result<Reader, Failure> {
        is_file(path)?;
        // The mark first: then an append that goes on meanwhile never looks like a loss.
        let mark = Mark::require(path)?;
        let file = File::open(path).map_err(|e| Failure::open(path, &e))?;
        let loaded = load(&file, path, Some(mark), streams)?;
        fits(path, mark, &loaded)?;
        let (length, most) = (loaded.used * SECTOR, loaded.bytes.len());
        let bytes = sectors::front(loaded.bytes, length, most);
        let index = Index::read(path, &bytes);
        Ok(Reader {
            file,
            path: path.to_path_buf(),
            mark,
            bytes,
            index,
            knowledge: Knowledge::default(),
        })
    }

    /// Takes what was marked as stored since: what a writer has acknowledged is never "not held".
    fn follow(&mut self, streams: &mut Streams) -> Result<(), Failure> {
        let mark = Mark::require(&self.path)?;
        let same = lock::is_at(&self.file, &self.path);
        if same && mark == self.mark {
            return Ok(());
        }
        if !(same && self.extend(mark)) {
            // Two of them may be too much. Where the opening fails, the server ends: nobody asks the empty one.
            self.bytes = Vec::new();
            *self = Reader::open(&self.path, streams)?;
        }
        Ok(())
    }

    /// Reads the sectors between the two marks. Whether they are all there and the rest stands.
    fn extend(&mut self, mark: Mark) -> bool {
        if mark.used < self.mark.used || mark.sectors < self.mark.sectors {
            return false;
        }
        let (start, end) = (self.mark.used * SECTOR, mark.used * SECTOR);
        let Loaded {
            bytes, unreadable, ..
        } = sectors::load_from(&self.file, start as u64, end - start);
        if bytes.len() < end - start || !unreadable.is_empty() {
            return false;
        }
        self.bytes.resize(self.bytes.len().max(end), 0);
        self.bytes[start..end].copy_from_slice(&bytes);
        self.mark = mark;
        self.index.extend(&self.bytes);
        self.knowledge.forget();
        used(&self.bytes) * SECTOR == self.bytes.len()
    }
}

impl Reader {
    /// Answers a write: a block that it takes for held is so on disk.
    fn meet_write(
        &mut self,
        session: Session,
        message: &[u8],
        reply: &mut [u8],
        streams: &mut Streams,
    ) -> boundary::Served {
        let log = &mut self.bytes[..self.mark.used * SECTOR];
        let mut unsound = Vec::new();
        loop {
            let index = self.index.lent();
            let served = boundary::serve(session, message, &NO_DAY, log, &mut [], index, reply);
            let block = served.outcome.ok().and(session::stored(message, reply));
            let sector = block.and_then(|(kind, score)| blocks::find(log, kind, &score));
            if let Some(damaged) = sector.and_then(|at| held::damaged(log, &self.file, at)) {
                streams.tell(&held::words(&damaged, &self.path));
                unsound.push(damaged.take(log));
                self.knowledge.forget();
                continue;
            }
            unsound.into_iter().for_each(|block| block.put_back(log));
            return served;
        }
    }
}

impl Answers for Reader {
    fn serve(
        &mut self,
        session: Session,
        message: &[u8],
        reply: &mut [u8],
        streams: &mut Streams,
    ) -> Result<Served, Failure> {
        self.follow(streams)?;
        let served = match session::is_write(message) {
            true => self.meet_write(session, message, reply, streams),
            false => {
                let lent = Lent {
                    log: &mut self.bytes,
                    waiting: &mut [],
                    index: self.index.lent(),
                };
                self.knowledge.serve(session, message, &NO_DAY, lent, reply)
            }
        };
        Ok(Served {
            outcome: served.outcome,
            session: served.session,
            appended: 0,
        })
    }

    /// What it acknowledges is on disk already.
    fn settle(&mut self) -> Result<(), Failure> {
        Ok(())
    }
}

#[cfg(test)]
mod tests {
    use super::*;
    use crate::mark;
    use crate::unique;
    use std::fs;
    use std::io;

    /// A long log with little in it takes little memory, and is not moved as it grows.
    #[test]
    fn only_the_used_part_is_kept() {
        let path = std::env::temp_dir().join(format!("skywimple-{}", unique::name()));
        let mut bytes = vec![0; 1000 * SECTOR];
        bytes[SECTOR] = 1;
        let write = |bytes: &[u8], used| {
            let sectors = 1000;
            fs::write(&path, bytes).unwrap();
            fs::write(mark::path_of(&path), Mark { sectors, used }.text()).unwrap();
        };
        write(&bytes, 2);
        let mut streams = Streams {
            input: &mut io::empty(),
            out: &mut io::sink(),
            err: &mut io::sink(),
            out_terminal: false,
            err_terminal: false,
            progress: false,
        };
        let mut reader = Reader::open(&path, &mut streams)
            .map_err(|failure| failure.words)
            .unwrap();
        assert_eq!(reader.bytes.len(), 2 * SECTOR);
        let place = (reader.bytes.as_ptr(), reader.bytes.capacity());
        bytes[2 * SECTOR..600 * SECTOR].fill(1);
        write(&bytes, 600);
        let followed = reader.follow(&mut streams);
        let _ = (
            fs::remove_file(mark::path_of(&path)),
            fs::remove_file(&path),
        );
        assert!(followed.is_ok());
        assert_eq!(reader.bytes.len(), 600 * SECTOR);
        assert_eq!(
            (reader.bytes.as_ptr(), reader.bytes.capacity()),
            place,
            "copied"
        );
    }
}
